# The guest that bench/step and bench/one step through: in 64 cells from 4096 on, over and over, sums, products, loads,
# stores and branches, of which one is hard to foresee. programs/turn has its words.
        lui  x8, 0x1
        addi x5, x0, 1
        addi x9, x0, 0
outer:  addi x7, x8, 0
        addi x6, x0, 64
inner:  ld   x28, 0(x7)
        mul  x5, x5, x5
        add  x28, x28, x5
        addi x5, x28, 13
        sd   x28, 0(x7)
        xor  x9, x9, x28
        srli x29, x9, 7
        bltu x29, x5, skip
        add  x9, x9, x29
skip:   addi x7, x7, 8
        addi x6, x6, -1
        bne  x6, x0, inner
        jal  x0, outer
