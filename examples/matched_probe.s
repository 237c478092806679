# Two harts of one rank share the messages that come in: MPROBE gives each message to just one of them.
#
# run: one --source; status 0
# run: one --source --plan 0,1,1; status 0
#
# Rank 1 sends six jobs, each a string of another length, and then two empty messages. Both harts of rank 0 do the same: MPROBE for any
# message, look at its length, and MRECV it by the handle that MPROBE gave. If they used PROBE and RECV, one hart could receive the message
# that the other had probed, and a length would not fit its message. A claimed message is found by nobody else. Each hart puts out
# its number and the job, and does it; an empty message sends it home. Look at the two reports: the plan decides who does which job, and
# each job is done once.
        .ranks 2
        .harts 2

_start: bnez a1, giver
        addi s0, a0, 48             # the hart's digit
        li   t0, 64
        mul  t0, t0, a0
        la   s1, lines
        add  s1, s1, t0             # 64 bytes of each hart's own: a status and a line
        sb   s0, 24(s1)
        li   t0, 32
        sb   t0, 25(s1)             # a blank behind the digit
take:   li   a0, 1                  # source: rank 1
        li   a1, -1                 # ANY_TAG
        li   a2, 0
        mv   a3, s1
        li   a7, 27                 # MPROBE: a1 is a message handle
        ecall
        mv   s2, a1
        ld   s3, 16(s1)             # the message's length
        addi a0, s1, 26
        mv   a1, s3
        mv   a2, s2
        li   a3, 0
        li   a7, 29                 # MRECV of this very message: it is there, so it never waits
        ecall
        beqz s3, end
        addi a0, s1, 24
        addi a1, s3, 2
        li   a7, 1                  # PUT
        ecall
        slli t0, s3, 4              # the job itself: the longer its name, the longer it takes
work:   addi t0, t0, -1
        bnez t0, work
        j    take

giver:  bnez a0, end                # hart 1 of rank 1 has nothing to do
        la   s0, jobs
send:   mv   a0, s0
        jal  length
        mv   s1, a1
        li   a2, 0                  # to rank 0
        li   a3, 5
        li   a4, 0
        li   a7, 16                 # SEND
        ecall
        add  s0, s0, s1
        bnez s1, send
        mv   a0, s0
        li   a1, 0                  # the second empty message
        ecall
end:    li   a0, 0
        li   a7, 0                  # EXIT
        ecall

# length: a1 is the number of bytes from a0 to the newline, with it; 0 where a 0 stands
length: li   a1, 0
        lbu  t0, 0(a0)
        beqz t0, told
        li   t1, 10
count:  add  t2, a0, a1
        lbu  t0, 0(t2)
        addi a1, a1, 1
        bne  t0, t1, count
told:   ret

        .data
jobs:   .asciz "sweep\nwash up\nbake\nread\nrepair the bicycle\nrest\n"
        .balign 8
lines:  .zero 128
