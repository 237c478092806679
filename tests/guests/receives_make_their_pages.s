# Both harts of rank 0 receive into pages that aren't there, and both messages come at once: after both receives, and before
# either hart looks for its own. So there has to be a page for each. A hart of rank 1 sends what the one of its number takes,
# and its round is one instruction longer, so that the messages come later from round to round. Each ends with the sum of its
# bytes: 97 to 102 are 597, 65 to 70 are 405.
        .ranks 2
        .harts 2
_start: addi s4, a0, 1              # the tag
        li   s5, 97                 # the first byte
        beqz a0, begin
        li   s5, 65
begin:  addi s6, s5, 6              # behind the last
        bnez a1, sends
        addi t0, a0, 2
        slli s1, t0, 12             # the first page, and two more a round
        lui  s7, 2
        li   s3, 0
takes:  mv   a0, s1
        li   a1, 1
        li   a2, 1                  # from rank 1
        mv   a3, s4
        li   a4, 0
        li   a5, 0
        li   a7, 18                 # RECV
        ecall
        lbu  t0, 0(s1)
        add  s3, s3, t0
        add  s1, s1, s7
        addi s5, s5, 1
        bltu s5, s6, takes
        mv   a0, s3
        j    end
sends:  slli t0, s4, 3
        sub  s1, sp, t0
gives:  sb   s5, 0(s1)
        mv   a0, s1
        li   a1, 1
        li   a2, 0
        mv   a3, s4
        li   a4, 0
        li   a7, 16                 # SEND
        nop
        nop
        nop
        nop
        ecall
        addi s5, s5, 1
        bltu s5, s6, gives
        li   a0, 0
end:    li   a7, 0                  # EXIT
        ecall
