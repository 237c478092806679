# A guest that writes across the borders of pages of 4096 bytes, with every width up to a border and from it on, by a
# received message and by a status that lie over one. It puts out what stands there then, and then digits: the words of
# the status, the bytes beside those of the first border, and eight bytes of a page that nobody wrote.
# run: one --source; status 0
        .ranks 1
        .memory 65536
        la   s0, text
        lbu  t0, 28(s0)
        lbu  t1, 29(s0)
        li   s1, 8192
        sb   t0, -1(s1)
        sb   t1, 0(s1)
        lhu  t0, 24(s0)
        lhu  t1, 26(s0)
        li   s2, 16384
        sh   t0, -2(s2)
        sh   t1, 0(s2)
        lw   t0, 16(s0)
        lw   t1, 20(s0)
        li   s3, 24576
        sw   t0, -4(s3)
        sw   t1, 0(s3)
        ld   t0, 0(s0)
        ld   t1, 8(s0)
        li   s4, 32768
        sd   t0, -8(s4)
        sd   t1, 0(s4)
        la   a0, sent                   # ten bytes to this rank itself, with tag 7
        li   a1, 10
        li   a2, 0
        li   a3, 7
        li   a4, 0
        li   a7, 16
        ecall
        li   s5, 40960
        addi a0, s5, -5
        li   a1, 10
        li   a2, 0
        li   a3, 7
        li   a4, 0
        li   s6, 49152
        addi a5, s6, -4
        li   a7, 18
        ecall
        addi a0, s1, -1
        li   a1, 2
        li   a7, 1
        ecall
        addi a0, s2, -2
        li   a1, 4
        ecall
        addi a0, s3, -4
        li   a1, 8
        ecall
        addi a0, s4, -8
        li   a1, 16
        ecall
        addi a0, s5, -5
        li   a1, 10
        ecall
        la   s7, digits
        lw   t0, -4(s6)
        addi t0, t0, 48
        sb   t0, 0(s7)
        lw   t0, 0(s6)
        addi t0, t0, 48
        sb   t0, 1(s7)
        lw   t0, 4(s6)
        addi t0, t0, 48
        sb   t0, 2(s7)
        lw   t0, 8(s6)
        addi t0, t0, 48
        sb   t0, 3(s7)
        lw   t0, 12(s6)
        addi t0, t0, 48
        sb   t0, 4(s7)
        lw   t0, 16(s6)
        addi t0, t0, 48
        sb   t0, 5(s7)
        lbu  t0, -2(s1)
        addi t0, t0, 48
        sb   t0, 6(s7)
        lbu  t0, 1(s1)
        addi t0, t0, 48
        sb   t0, 7(s7)
        li   s8, 57344
        ld   t0, 0(s8)
        addi t0, t0, 48
        sb   t0, 8(s7)
        mv   a0, s7
        li   a1, 10
        ecall
        li   a0, 0
        li   a7, 0
        ecall
        .data
text:   .ascii "opqrstuvwxyzABCDghijklmncdefab"
sent:   .ascii "0123456789"
digits: .ascii "?????????\n"
