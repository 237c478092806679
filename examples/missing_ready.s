# A sender makes three of its four partitions ready, and waits: a deadlock by one missing PREADY.
#
# run: one --source --until-stuck; status 4
# run: one --source --budget 1000 --why; status 4
#
# Rank 0 makes partitions 0, 1 and 3 ready, and forgets 2. Its WAIT is held by its own partition: it ends once all were
# taken. Rank 1 has taken 0 and 1, and waits for 2. Partition 3 lies in its box, but a WAIT takes the boxes in turn, so
# it isn't taken yet. Look behind the report: the sender waits for itself, and says for which partition.
        .ranks 2
        .link 0, 1
        .globl held
        .globl wait

_start: bnez a1, take

# rank 0
        la   a0, row
        li   a1, 4                  # partitions
        li   a2, 8                  # bytes of each
        li   a3, 1                  # to rank 1
        li   a4, 5                  # the tag
        li   a5, 0                  # communicator 0
        li   a7, 40                 # PSEND_INIT
        ecall
        mv   s0, a1                 # the handle
        mv   a0, s0
        li   a7, 32                 # START
        ecall
        la   s1, pieces
        li   s2, 3
next:   mv   a0, s0
        lbu  a1, 0(s1)
        li   a7, 42                 # PREADY
        ecall
        addi s1, s1, 1
        addi s2, s2, -1
        bnez s2, next
held:   mv   a0, s0
        li   a1, 0
        li   a7, 23                 # WAIT
        ecall
        j    end

# rank 1
take:   la   a0, room
        li   a1, 4
        li   a2, 8
        li   a3, 0                  # from rank 0
        li   a4, 5
        li   a5, 0
        li   a7, 41                 # PRECV_INIT
        ecall
        mv   s0, a1
        mv   a0, s0
        li   a7, 32                 # START
        ecall
wait:   mv   a0, s0
        li   a1, 0
        li   a7, 23                 # WAIT
        ecall
end:    li   a0, 0
        li   a7, 0                  # EXIT
        ecall

        .data
pieces: .byte 0, 1, 3
row:    .ascii "piece 0 piece 1 piece 2 piece 3 "
room:   .zero 32
