# Four ranks in a ring share a grid of 16 rows of 32 cells, four rows each, and exchange their edge rows by partitions.
#
# run: one --source; status 0
# run: one --source --order 3,2,1,0; status 0
#
# A cell of the next grid is # where an odd number of its four neighbours is #: so every pattern makes four copies of
# itself. A rank needs the row above its own and the row below them: its halo. An edge row is one partitioned transfer
# (MPI 4.1, chapter 4) of four partitions of 8 cells, in both directions. In each step a rank works out its two edge
# rows first, piece by piece, and makes each piece ready as soon as it is there (PREADY), so that it is under way
# while the rank goes on with the next piece and the rows between. Then it waits for both halos, and for its own edges
# to be taken. The four transfers are made once, and started in each of the twelve steps. Look at the four outputs,
# one below the other: the seed, five cells in the middle of rank 1's rows, has made eight copies of itself, in the
# rows of ranks 0, 1 and 2. After eight steps there were two, eight cells to the left and to the right, for the two
# that went eight rows up and down met in rank 3's rows and went out: sixteen rows are the whole ring. In four more
# steps each of them made four.
        .ranks 4
        .link 0, 1
        .link 1, 2
        .link 2, 3
        .link 3, 0
        .link 1, 0
        .link 2, 1
        .link 3, 2
        .link 0, 3

_start: addi s1, a1, 3
        andi s1, s1, 3              # the rank above
        addi s2, a1, 1
        andi s2, s2, 3              # the rank below
        la   s10, grid
        la   s11, other
        li   t0, 1
        bne  a1, t0, make
        li   t1, 35                 # the seed, in rows 2 and 3 of rank 1
        sb   t1, 82(s10)
        sb   t1, 83(s10)
        sb   t1, 84(s10)
        sb   t1, 116(s10)
        sb   t1, 117(s10)

# the four transfers; a tag is the direction: 1 downwards, 2 upwards
make:   li   a1, 4                  # partitions
        li   a2, 8                  # bytes of each
        li   a5, 0
        la   a0, upper
        mv   a3, s1
        li   a4, 2
        li   a7, 40                 # PSEND_INIT: the upper edge, upwards
        jal  keep
        mv   s3, a1
        la   a0, lower
        mv   a3, s2
        li   a4, 1
        jal  keep                   # the lower edge, downwards
        mv   s4, a1
        la   a0, above
        mv   a3, s1
        li   a4, 1
        li   a7, 41                 # PRECV_INIT: the halo above comes downwards
        jal  keep
        mv   s5, a1
        la   a0, below
        mv   a3, s2
        li   a4, 2
        jal  keep                   # the halo below comes upwards
        mv   s6, a1

        li   s7, 12                 # steps
step:   mv   a0, s3
        li   a7, 32                 # START, all four
        ecall
        mv   a0, s4
        ecall
        mv   a0, s5
        ecall
        mv   a0, s6
        ecall

# the edge rows, a piece of 8 cells at a time: rows 1 and 4
        li   s8, 0                  # the piece
piece:  slli t0, s8, 3
        addi a2, t0, 35             # row 1, behind its border cell
        la   a3, upper
        add  a3, a3, t0
        jal  eight
        mv   a0, s3
        mv   a1, s8
        li   a7, 42                 # PREADY
        ecall
        slli t0, s8, 3
        addi a2, t0, 137            # row 4
        la   a3, lower
        add  a3, a3, t0
        jal  eight
        mv   a0, s4
        mv   a1, s8
        li   a7, 42
        ecall
        addi s8, s8, 1
        li   t0, 4
        blt  s8, t0, piece

# the rows between: 2 and 3
        li   s8, 0
inner:  slli t0, s8, 3
        addi a2, t0, 69
        la   a3, spare
        jal  eight
        slli t0, s8, 3
        addi a2, t0, 103
        la   a3, spare
        jal  eight
        addi s8, s8, 1
        li   t0, 4
        blt  s8, t0, inner

# the halos come into rows 0 and 5 of the new grid
        mv   a0, s5
        li   a1, 0
        li   a7, 23                 # WAIT
        ecall
        la   t0, above
        addi t1, s11, 1
        jal  row
        mv   a0, s6
        li   a1, 0
        li   a7, 23
        ecall
        la   t0, below
        addi t1, s11, 171
        jal  row
        mv   a0, s3
        li   a1, 0
        li   a7, 23                 # the own edges were taken: their buffers are free again
        ecall
        mv   a0, s4
        li   a7, 23
        ecall
        mv   t0, s10                # the new grid is the grid now
        mv   s10, s11
        mv   s11, t0
        addi s7, s7, -1
        bnez s7, step

# put out rows 1 to 4
        li   s8, 4
        addi s9, s10, 35
show:   mv   a0, s9
        li   a1, 32
        li   a7, 1                  # PUT
        ecall
        la   a0, line
        li   a1, 1
        ecall
        addi s9, s9, 34
        addi s8, s8, -1
        bnez s8, show
        li   a0, 0
        li   a7, 0                  # EXIT
        ecall

# keep: makes one transfer; a1 is its handle then. The shape and the communicator stay in a1, a2 and a5
keep:   li   a1, 4
        ecall
        ret

# eight: works out 8 cells of the new grid from offset a2 on, and copies them to a3
eight:  li   t0, 8
        add  t1, s10, a2
        add  t2, s11, a2
cell:   lbu  t3, -34(t1)
        lbu  t4, 34(t1)
        xor  t3, t3, t4
        lbu  t4, -1(t1)
        xor  t3, t3, t4
        lbu  t4, 1(t1)
        xor  t3, t3, t4             # 0 where an even number of the four is #, else 35 ^ 46
        li   t4, 46
        xor  t3, t3, t4             # so this is . or #
        sb   t3, 0(t2)
        sb   t3, 0(a3)
        addi t1, t1, 1
        addi t2, t2, 1
        addi a3, a3, 1
        addi t0, t0, -1
        bnez t0, cell
        ret

# row: copies 32 cells from t0 to t1
row:    li   t2, 32
copy:   lbu  t3, 0(t0)
        sb   t3, 0(t1)
        addi t0, t0, 1
        addi t1, t1, 1
        addi t2, t2, -1
        bnez t2, copy
        ret

        .data
# two grids of six rows: the own four between the halos; each row has 32 cells between two border cells that stay empty
grid:   .ascii ".................................."
        .ascii ".................................."
        .ascii ".................................."
        .ascii ".................................."
        .ascii ".................................."
        .ascii ".................................."
other:  .ascii ".................................."
        .ascii ".................................."
        .ascii ".................................."
        .ascii ".................................."
        .ascii ".................................."
        .ascii ".................................."
upper:  .zero 32
lower:  .zero 32
above:  .zero 32
below:  .zero 32
spare:  .zero 8
line:   .ascii "\n"
