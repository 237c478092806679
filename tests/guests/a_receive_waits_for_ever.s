# A receive of a message that never comes: each further turn is a poll, until the budget is used.
# run: one --source --budget 20; status 4
        .ranks 2
        addi a0, sp, -16
        li   a1, 8
        li   a2, -1
        li   a3, -1
        li   a4, 0
        li   a5, 0
        li   a7, 18                 # RECV
        ecall
