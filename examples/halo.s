# Four ranks share a line of 32 cells, eight each, and exchange the cells at their edges before each step, by persistent requests.
#
# run: one --source; status 0
#
# A cell of the next row is # where just one of its two neighbours is (.#. becomes #.#). A rank needs one cell of each neighbour: its
# halo. The four transfers are the same in each step, so they are described once, by SEND_INIT and RECV_INIT, and then started and completed
# fifteen times: START posts each again, with the bytes that the edge has then, and WAITALL completes all four and leaves them inactive, not
# freed. At the ends of the line the neighbour is the null process: these requests complete at once, and the halo stays as it was. Put the
# four outputs side by side, 2 behind 1 and so on: a triangle of triangles. No rank waits for all others: a fast rank's next edge simply
# arrives behind the present one, since nothing overtakes.
        .ranks 4

_start: mv   s0, a1                 # the own rank
        addi s1, s0, -1             # the left neighbour
        bgez s1, right
        li   s1, -2                 # PROC_NULL
right:  addi s2, s0, 1              # the right neighbour
        li   t0, 4
        blt  s2, t0, seed
        li   s2, -2
seed:   la   s3, cells
        li   t0, 2
        bne  s0, t0, plan
        li   t1, 35
        sb   t1, 0(s3)              # one # in the middle of the line: rank 2's first cell

# the four transfers; a tag is the direction: 1 to the right, 2 to the left
plan:   la   s4, handles
        addi a0, s3, -1
        mv   a2, s1
        li   a3, 1
        li   a7, 31                 # RECV_INIT: the left halo
        jal  once
        addi a0, s3, 8
        mv   a2, s2
        li   a3, 2
        jal  once                   # the right halo
        mv   a0, s3
        mv   a2, s1
        li   a3, 2
        li   a7, 30                 # SEND_INIT: the first cell to the left
        jal  once
        addi a0, s3, 7
        mv   a2, s2
        li   a3, 1
        jal  once                   # the last cell to the right

        li   s5, 15                 # steps
        jal  show
step:   li   s6, 4
        la   s7, handles
start:  ld   a0, 0(s7)
        li   a7, 32                 # START
        ecall
        addi s7, s7, 8
        addi s6, s6, -1
        bnez s6, start
        la   a0, handles
        li   a1, 4
        li   a2, 0                  # no statuses are wanted
        li   a7, 35                 # WAITALL
        ecall
        jal  rule
        jal  show
        addi s5, s5, -1
        bnez s5, step

        li   s6, 4
        la   s7, handles
free:   ld   a0, 0(s7)
        li   a7, 33                 # REQUEST_FREE
        ecall
        addi s7, s7, 8
        addi s6, s6, -1
        bnez s6, free
        li   a0, 0
        li   a7, 0                  # EXIT
        ecall

# once: makes one request of one byte, and keeps its handle
once:   li   a1, 1
        li   a4, 0
        ecall
        sd   a1, 0(s4)
        addi s4, s4, 8
        ret

# rule: the cells become those of the next row
rule:   li   t0, 8
        mv   t1, s3
        lbu  t2, -1(t1)             # the left neighbour's cell, as it was
cell:   lbu  t3, 0(t1)
        lbu  t4, 1(t1)
        li   t5, 46                 # .
        beq  t2, t4, keep
        li   t5, 35                 # #
keep:   sb   t5, 0(t1)
        mv   t2, t3
        addi t1, t1, 1
        addi t0, t0, -1
        bnez t0, cell
        ret

# show: puts out the cells and a newline
show:   mv   a0, s3
        li   a1, 8
        li   a7, 1                  # PUT
        ecall
        la   a0, line
        li   a1, 1
        ecall
        ret

        .data
handles: .dword 0, 0, 0, 0
left:   .ascii "."
cells:  .ascii "........"
halo:   .ascii "."
line:   .ascii "\n"
