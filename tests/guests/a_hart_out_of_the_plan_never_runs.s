# Hart 1 isn't in the plan: it stands at the entry when the budget is used.
# run: one --source --plan 0 --budget 10; status 4
        .harts 2
        li   a0, 0
        li   a7, 0                  # EXIT
        ecall
