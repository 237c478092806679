# Both ranks send synchronously before they receive: both wait, until their budgets are used.
# run: one --source --budget 30; status 4
        .ranks 2
        li   t0, 1
        sub  a2, t0, a1             # to the other rank
        addi a0, sp, -16
        li   a1, 8
        li   a3, 7
        li   a4, 0
        li   a7, 17                 # SSEND
        ecall
