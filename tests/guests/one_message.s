# Rank 0 sends two bytes with tag 7 to rank 1, which receives them and puts them out: the send before the receive,
# behind
# it, with leading zeros, two turns of rank 0 to one of rank 1, and orders and plans that are refused.
# run: one --source --order 0,1; status 0
# run: one --source; status 0
# run: one --source --order 1,0; status 0
# run: one --source --order 00,01; status 0
# run: one --source --order 1,0,0; status 0
# run: one --source --order 0; status 1
# run: one --source --order 0,1,2; status 1
# run: one --source --plan 1; status 1
# run: one --source --plan 0,255; status 1
        .ranks 2
        bnez a1, take
        la   a0, text
        li   a1, 2
        li   a2, 1
        li   a3, 7
        li   a4, 0
        li   a7, 16
        ecall
        j    last
take:   addi a0, sp, -16
        li   a1, 2
        li   a2, 0
        li   a3, 7
        li   a4, 0
        li   a5, 0
        li   a7, 18
        ecall
        addi a0, sp, -16
        li   a1, 2
        li   a7, 1
        ecall
last:   li   a0, 0
        li   a7, 0
        ecall
        .data
text:   .ascii "k\n"
