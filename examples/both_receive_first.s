# Two ranks give each other a line, and both receive first: a deadlock.
#
# run: one --source --until-stuck; status 4
# run: one --source --budget 1000 --why; status 4
#
# Each rank's RECV waits for a message that the other sends behind its own RECV. Neither comes so far: both wait, and
# the run ends once that is seen. Look behind the report: each hart waits for a message from the other rank, and the
# verdict names both. No order of turns and no budget mends it. examples/nonblocking_exchange.s shows what does: a
# receive that is posted first and waited for last.
        .ranks 2
        .globl take
        .globl give

_start: li   t0, 1
        sub  s1, t0, a1             # the other rank
        addi t1, a1, 48
        la   t2, line
        sb   t1, 5(t2)              # "rank 0 was here" or "rank 1 .."
take:   la   a0, room
        li   a1, 16
        mv   a2, s1
        li   a3, 7
        li   a4, 0
        li   a5, 0
        li   a7, 18                 # RECV
        ecall
give:   la   a0, line
        li   a1, 16
        mv   a2, s1
        li   a3, 7
        li   a4, 0
        li   a7, 16                 # SEND
        ecall
        li   a0, 0
        li   a7, 0                  # EXIT
        ecall

        .data
line:   .ascii "rank ? was here\n"
room:   .zero 16
