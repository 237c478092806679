# Four ranks in a ring each wait for the rank before them: a deadlock of four.
#
# run: one --source --until-stuck; status 4
# run: one --source --budget 1000 --why; status 4
#
# Each rank posts a receive from the rank before it and WAITs for that before it sends on. Nobody began: a ring like
# examples/ring.s needs one rank that sends first. A WAIT tells by its handle alone what it is for; what each waits for
# stands behind the report, so the ring can be read off it.
        .ranks 4
        .globl wait

_start: addi s1, a1, 3
        andi s1, s1, 3              # the rank before
        addi s2, a1, 1
        andi s2, s2, 3              # the rank behind
        la   a0, room
        li   a1, 8
        mv   a2, s1
        addi a3, s1, 40             # the tag: 40 and the sender's number
        li   a4, 0
        li   a7, 21                 # IRECV
        ecall
        mv   a0, a1
wait:   li   a1, 0
        li   a7, 23                 # WAIT
        ecall
        la   a0, room
        li   a1, 8
        mv   a2, s2
        addi a3, s2, 39             # the own number and 40
        li   a4, 0
        li   a7, 16                 # SEND
        ecall
        li   a0, 0
        li   a7, 0                  # EXIT
        ecall

        .data
room:   .zero 8
