# Two harts of rank 1 each receive with the same source and tag: the hart whose receive is posted first has the
# first message.
# run: one --source; status 0
# run: one --source --plan 1,0; status 0
        .ranks 2
        .harts 2
_start: bnez a1, take
        bnez a0, end                # rank 0: hart 0 sends twice
        la   s0, text
        mv   a0, s0
        jal  give
        addi a0, s0, 1
        jal  give
        j    end
give:   li   a1, 1
        li   a2, 1
        li   a3, 7
        li   a4, 0
        li   a7, 16                 # SEND
        ecall
        ret
take:   mv   s1, a0
        slli t0, a0, 1
        la   s0, lines
        add  s0, s0, t0             # two bytes for each hart
        mv   a0, s0
        li   a1, 1
        li   a2, 0
        li   a3, 7
        li   a4, 0
        li   a5, 0
        li   a7, 18                 # RECV
        ecall
end:    li   a7, 0                  # EXIT: the code is the byte that came, or else 0
        beqz s0, none
        lbu  a0, 0(s0)
        ecall
none:   li   a0, 0
        ecall
        .data
text:   .ascii "ab"
lines:  .zero 4
