# Two harts wait for one handle: one completes it, the next turn of the other is BAD_REQUEST (6).
# run: one --source; status 0
# run: one --source --plan 0,0,1; status 0
        .ranks 2
        .harts 2
_start: bnez a1, other
        la   s0, words
        bnez a0, second
        addi a0, s0, 64             # hart 0: IRECV, and WAIT for it
        li   a1, 8
        li   a2, 1
        li   a3, 7
        li   a4, 0
        li   a7, 21
        ecall
        mv   a0, a1
        li   a1, 0
        sd   a0, 0(s0)              # hart 1 may read the handle
        li   a7, 23
        ecall
        li   a7, 0                  # EXIT: the code of WAIT
        ecall
second: ld   a0, 0(s0)              # hart 1: WAIT for the same handle
        beqz a0, second
        li   a1, 0
        li   a7, 23
        ecall
        li   a7, 0                  # EXIT: the code of WAIT
        ecall
other:  bnez a0, end                # rank 1: hart 0 sends later
        li   t0, 100
work:   addi t0, t0, -1
        bnez t0, work
        la   a0, text
        li   a1, 2
        li   a2, 0
        li   a3, 7
        li   a4, 0
        li   a7, 16
        ecall
end:    li   a0, 0
        li   a7, 0
        ecall
        .data
words:  .zero 128
text:   .ascii "ab"
