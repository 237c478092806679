# Ranks 0 and 1 wait for each other, as it seems, while rank 2 still works: no deadlock.
#
# run: one --source --budget 60 --why; status 4
# run: one --source --why; status 0
#
# Ranks 0 and 1 begin with a receive from any rank, and each sends to the other behind it. By themselves they would wait
# for ever. But rank 2 works for a while and then sends to rank 0, and with that message all go on. After 60 turns it
# works still, and the verdict is that no deadlock is shown: a receive from any rank hangs on all ranks. With the whole
# budget all three end.
        .ranks 3
        .globl meet
        .globl work

_start: li   t0, 2
        beq  a1, t0, later
        li   t0, 1
        sub  s1, t0, a1             # the other of ranks 0 and 1
meet:   la   a0, room
        li   a1, 8
        li   a2, -1                 # from any rank
        li   a3, -1                 # with any tag
        li   a4, 0
        li   a5, 0
        li   a7, 18                 # RECV
        ecall
        la   a0, room
        li   a1, 8
        mv   a2, s1
        li   a3, 7
        li   a4, 0
        li   a7, 16                 # SEND, to who waits as well
        ecall
        j    end

# rank 2
later:  li   t0, 100
work:   addi t0, t0, -1
        bnez t0, work
        la   a0, room
        li   a1, 8
        li   a2, 0                  # to rank 0
        li   a3, 9
        li   a4, 0
        li   a7, 16                 # SEND
        ecall
end:    li   a0, 0
        li   a7, 0                  # EXIT
        ecall

        .data
room:   .zero 8
