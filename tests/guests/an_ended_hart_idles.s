# Hart 0 ends at once, hart 1 counts to 5: the turns of the ended hart are counted. With the plan hart 0 is given
# two turns of
# three.
# run: one --source; status 0
# run: one --source --plan 0,0,1; status 0
        .harts 2
        bnez a0, count
        li   a0, 7
        li   a7, 0                  # EXIT
        ecall
count:  li   t0, 5
again:  addi t0, t0, -1
        bnez t0, again
        li   a0, 9
        li   a7, 0
        ecall
