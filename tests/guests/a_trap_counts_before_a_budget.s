# Rank 0 traps at an EBREAK, rank 1 goes round until its budget is used: the status is 3.
# run: one --source --budget 5; status 3
        .ranks 2
        bnez a1, round
        ebreak
round:  j    round
