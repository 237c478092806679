# EXIT of -1.
# run: one --source; status 0
        li   a0, -1
        li   a7, 0
        ecall
