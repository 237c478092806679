# The third turn ends the hart and uses the budget: all-ended.
# run: one --source --budget 3; status 0
        li   a0, 0
        li   a7, 0
        ecall
