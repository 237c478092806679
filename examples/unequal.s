# Two ranks cut one transfer of 192 bytes differently: the sender into 3 partitions of 64, the receiver into 2 of 96.
#
# run: one --source; status 0
# run: one --source --order 1,0; status 0
#
# The sender's cut decides what moves: box i is its partition i (MPI 4.1, chapter 4.2, lets both sides choose their
# own). The receiver asks for partitions of its own: its partition 0 lies in boxes 0 and 1, its partition 1 in boxes 1
# and 2. So it has partition 0 only once the sender has made 0 and 1 ready. Rank 0 makes them ready in the order 2, 0,
# 1, and works for a while before each; rank 1 asks for its partitions in turn by PARRIVED, which takes one box a call
# where one is ready, and puts out each partition as soon as it has arrived. Look at the report: the first half comes
# first, although the sender began with the end, for box 2 alone is no whole partition. The last call, WAIT, finds
# nothing left, and gives the status: the source 0, the tag 5, and all 192 bytes, which rank 1 ends with.
#
# bytes      0         32        64        96        128       160       192
# sender     |----- box 0 -------|------ box 1 ------|------ box 2 -------|
# receiver   |-------- partition 0 ---------|-------- partition 1 --------|
        .ranks 2
        .link 0, 1

_start: bnez a1, take

# rank 0
        la   a0, text
        li   a1, 3                  # partitions
        li   a2, 64                 # bytes of each
        li   a3, 1                  # to rank 1
        li   a4, 5                  # the tag
        li   a5, 0                  # communicator 0
        li   a7, 40                 # PSEND_INIT
        ecall
        mv   s0, a1                 # the handle
        mv   a0, s0
        li   a7, 32                 # START: a phase begins
        ecall
        la   s1, order
        li   s2, 3
next:   li   t0, 40                 # some work
work:   addi t0, t0, -1
        bnez t0, work
        mv   a0, s0
        lbu  a1, 0(s1)
        li   a7, 42                 # PREADY
        ecall
        addi s1, s1, 1
        addi s2, s2, -1
        bnez s2, next
        mv   a0, s0
        li   a1, 0
        li   a7, 23                 # WAIT: until all three are taken
        ecall
        j    end

# rank 1
take:   la   a0, room
        li   a1, 2
        li   a2, 96
        li   a3, 0                  # from rank 0
        li   a4, 5
        li   a5, 0
        li   a7, 41                 # PRECV_INIT
        ecall
        mv   s0, a1
        mv   a0, s0
        li   a7, 32                 # START
        ecall
        li   s1, 0                  # which of its partitions were put out, a bit each
ask:    li   s2, 0                  # the partition that is asked for
part:   li   t0, 1
        sll  t0, t0, s2
        and  t1, s1, t0
        bnez t1, other              # this one was put out
        mv   a0, s0
        mv   a1, s2
        li   a7, 43                 # PARRIVED: a1 is the flag
        ecall
        beqz a1, other
        li   t0, 1
        sll  t0, t0, s2
        or   s1, s1, t0
        la   a0, room
        li   t0, 96
        mul  t0, t0, s2
        add  a0, a0, t0
        li   a1, 96
        li   a7, 1                  # PUT
        ecall
other:  addi s2, s2, 1
        li   t0, 2
        blt  s2, t0, part
        li   t0, 3
        blt  s1, t0, ask
        mv   a0, s0
        la   a1, status
        li   a7, 23                 # WAIT
        ecall
        la   t0, status
        ld   a0, 16(t0)             # the count: 192
        li   a7, 0
        ecall
end:    li   a0, 0
        li   a7, 0                  # EXIT
        ecall

        .data
order:  .byte 2, 0, 1
text:   .ascii "box 0: the sender's first partition, which is one of three     \n"
        .ascii "box 1: half of it belongs to each of the receiver's partitions \n"
        .ascii "box 2: made ready first, and still put out behind the others   \n"
        .balign 8
room:   .zero 192
status: .zero 24
