# At the start x2 is the memory's size less 4,096 for each hart before, x10 the hart, x11 the rank.
# run: one --source; status 0
        .ranks 2
        .harts 2
        .memory 8192
        slli t0, a1, 8
        add  t0, t0, a0
        slli t1, sp, 16
        add  a0, t0, t1             # x2 * 65536 + rank * 256 + hart
        li   a7, 0                  # EXIT
        ecall
