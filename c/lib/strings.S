# strings.S: memcpy, memmove, memset, memcmp and strlen, in the place of the C library's, which go byte by byte. They move 8
# bytes at a time where both sides can, and otherwise put 8 bytes together from two loads, since a load at another multiple
# traps. They leave ra, sp and s0 alone, so that a debugger finds the caller. A program may have its own, so they are weak.
# No load leaves the 8 bytes, at a multiple of 8, that hold a byte which is asked for. A null pointer is reported where there
# are bytes to be read or written.
#include "functions.h"
#include "null.h"
        .cfi_sections .debug_frame

# a0 to, a1 from, a2 bytes.
        begins memcpy, weak
        beqz a2, .Lcopied
        beqz a0, .Lcopy_null
        beqz a1, .Lcopy_null
# From the low end: a3 to, a1 from, a4 the end, a5 the last place at which so many bytes are left.
.Lforward:
        mv a3, a0
        add a4, a0, a2
        xor t0, a0, a1
        andi t0, t0, 7
        andi t1, a0, 7
        bnez t0, .Lshifted
        beqz t1, 2f
        li t0, 16
        bltu a2, t0, 5f
1:      lbu t0, 0(a1)
        addi a1, a1, 1
        addi a3, a3, 1
        sb t0, -1(a3)
        andi t1, a3, 7
        bnez t1, 1b
2:      addi a5, a4, -32
        bltu a5, a3, 4f
3:      ld t0, 0(a1)
        ld t1, 8(a1)
        ld t2, 16(a1)
        ld t3, 24(a1)
        sd t0, 0(a3)
        sd t1, 8(a3)
        sd t2, 16(a3)
        sd t3, 24(a3)
        addi a1, a1, 32
        addi a3, a3, 32
        bgeu a5, a3, 3b
4:      addi a5, a4, -8
        bltu a5, a3, 5f
41:     ld t0, 0(a1)
        addi a1, a1, 8
        sd t0, 0(a3)
        addi a3, a3, 8
        bgeu a5, a3, 41b
5:      bgeu a3, a4, .Lcopied
6:      lbu t0, 0(a1)
        addi a1, a1, 1
        sb t0, 0(a3)
        addi a3, a3, 1
        bltu a3, a4, 6b
.Lcopied:
        ret
# Both sides are at different places in their 8 bytes: t5 and t6 are how far to shift, t0 has the 8 bytes at a1.
.Lshifted:
        li t0, 24
        bltu a2, t0, 6b
        beqz t1, 2f
1:      lbu t0, 0(a1)
        addi a1, a1, 1
        addi a3, a3, 1
        sb t0, -1(a3)
        andi t1, a3, 7
        bnez t1, 1b
2:      slli t5, a1, 3
        neg t6, t5
        andi t4, a1, 7
        sub a1, a1, t4
        ld t0, 0(a1)
        addi a5, a4, -16
3:      ld t1, 8(a1)
        srl t0, t0, t5
        sll t2, t1, t6
        or t0, t0, t2
        sd t0, 0(a3)
        ld t0, 16(a1)
        srl t1, t1, t5
        sll t2, t0, t6
        or t1, t1, t2
        sd t1, 8(a3)
        addi a1, a1, 16
        addi a3, a3, 16
        bgeu a5, a3, 3b
        add a1, a1, t4
        j 5b
.Lcopy_null:
        is_null memcpy
        ends memcpy

        begins memmove, weak
        beqz a2, .Lmoved
        beqz a0, 1f
        beqz a1, 1f
        sub t0, a0, a1
        bltu t0, a2, .Lbackward
        j .Lforward
1:      is_null memmove
# From the high end: a3 behind to, a1 behind from, a0 the end, a5 the last place at which so many bytes are left.
.Lbackward:
        add a3, a0, a2
        add a1, a1, a2
        andi t0, t0, 7
        andi t1, a3, 7
        bnez t0, .Lshifted_back
        beqz t1, 2f
        li t0, 16
        bltu a2, t0, 6f
1:      lbu t0, -1(a1)
        addi a1, a1, -1
        addi a3, a3, -1
        sb t0, 0(a3)
        andi t1, a3, 7
        bnez t1, 1b
2:      addi a5, a0, 32
        bltu a3, a5, 4f
3:      ld t0, -8(a1)
        ld t1, -16(a1)
        ld t2, -24(a1)
        ld t3, -32(a1)
        sd t0, -8(a3)
        sd t1, -16(a3)
        sd t2, -24(a3)
        sd t3, -32(a3)
        addi a1, a1, -32
        addi a3, a3, -32
        bgeu a3, a5, 3b
4:      addi a5, a0, 8
        bltu a3, a5, 5f
41:     ld t0, -8(a1)
        addi a1, a1, -8
        sd t0, -8(a3)
        addi a3, a3, -8
        bgeu a3, a5, 41b
5:      beq a3, a0, .Lmoved
6:      lbu t0, -1(a1)
        addi a1, a1, -1
        sb t0, -1(a3)
        addi a3, a3, -1
        bne a3, a0, 6b
.Lmoved:
        ret
.Lshifted_back:
        li t0, 24
        bltu a2, t0, 6b
        beqz t1, 2f
1:      lbu t0, -1(a1)
        addi a1, a1, -1
        addi a3, a3, -1
        sb t0, 0(a3)
        andi t1, a3, 7
        bnez t1, 1b
2:      slli t5, a1, 3
        neg t6, t5
        andi t4, a1, 7
        sub a1, a1, t4
        ld t0, 0(a1)
        addi a5, a0, 16
3:      ld t1, -8(a1)
        sll t0, t0, t6
        srl t2, t1, t5
        or t0, t0, t2
        sd t0, -8(a3)
        ld t0, -16(a1)
        sll t1, t1, t6
        srl t2, t0, t5
        or t1, t1, t2
        sd t1, -16(a3)
        addi a1, a1, -16
        addi a3, a3, -16
        bgeu a3, a5, 3b
        add a1, a1, t4
        j 5b
        ends memmove

# a0 to, a1 the byte, a2 bytes. a3 goes on to a4.
        begins memset, weak
        beqz a2, 9f
        beqz a0, 10f
        mv a3, a0
        add a4, a0, a2
        li t0, 16
        bltu a2, t0, 8f
        andi a1, a1, 255
        slli t0, a1, 8
        or a1, a1, t0
        slli t0, a1, 16
        or a1, a1, t0
        slli t0, a1, 32
        or a1, a1, t0
        andi t0, a3, 7
        beqz t0, 3f
2:      sb a1, 0(a3)
        addi a3, a3, 1
        andi t0, a3, 7
        bnez t0, 2b
3:      addi a5, a4, -32
        bltu a5, a3, 5f
4:      sd a1, 0(a3)
        sd a1, 8(a3)
        sd a1, 16(a3)
        sd a1, 24(a3)
        addi a3, a3, 32
        bgeu a5, a3, 4b
5:      addi a5, a4, -8
        bltu a5, a3, 7f
6:      sd a1, 0(a3)
        addi a3, a3, 8
        bgeu a5, a3, 6b
7:      bgeu a3, a4, 9f
8:      sb a1, 0(a3)
        addi a3, a3, 1
        bltu a3, a4, 8b
9:      ret
10:     is_null memset
        ends memset

# a0 and a1 the sides, a2 bytes, a4 the end of a0. t0 and t1 are 8 bytes of each that may differ.
        begins memcmp, weak
        beqz a2, .Lsame
        beqz a0, .Lcompare_null
        beqz a1, .Lcompare_null
        add a4, a0, a2
        li t0, 16
        bltu a2, t0, .Lbytes
        andi t1, a0, 7
        beqz t1, 4f
3:      lbu t0, 0(a0)
        lbu t1, 0(a1)
        addi a0, a0, 1
        addi a1, a1, 1
        bne t0, t1, .Lof_bytes
        andi t1, a0, 7
        bnez t1, 3b
4:      andi t4, a1, 7
        addi a5, a4, -16
        bnez t4, .Lcompare_shifted
        bltu a5, a0, 6f
5:      ld t0, 0(a0)
        ld t1, 0(a1)
        bne t0, t1, .Lof_words
        ld t0, 8(a0)
        ld t1, 8(a1)
        bne t0, t1, .Lof_words
        addi a0, a0, 16
        addi a1, a1, 16
        bgeu a5, a0, 5b
6:      addi a5, a4, -8
        bltu a5, a0, 7f
        ld t0, 0(a0)
        ld t1, 0(a1)
        addi a0, a0, 8
        addi a1, a1, 8
        bne t0, t1, .Lof_words
7:      bgeu a0, a4, .Lsame
.Lbytes:
        lbu t0, 0(a0)
        lbu t1, 0(a1)
        addi a0, a0, 1
        addi a1, a1, 1
        bne t0, t1, .Lof_bytes
        bltu a0, a4, .Lbytes
.Lsame:
        li a0, 0
        ret
.Lcompare_shifted:
        bltu a5, a0, .Lbytes
        slli t5, a1, 3
        neg t6, t5
        sub a1, a1, t4
        ld t2, 0(a1)
1:      ld t3, 8(a1)
        ld t0, 0(a0)
        srl t1, t2, t5
        sll t2, t3, t6
        or t1, t1, t2
        bne t0, t1, .Lof_words
        ld t2, 16(a1)
        ld t0, 8(a0)
        srl t1, t3, t5
        sll t3, t2, t6
        or t1, t1, t3
        bne t0, t1, .Lof_words
        addi a0, a0, 16
        addi a1, a1, 16
        bgeu a5, a0, 1b
        add a1, a1, t4
        bltu a0, a4, .Lbytes
        j .Lsame
# The lowest byte that differs is the first.
.Lof_words:
        xor t2, t0, t1
        slli t3, t2, 32
        bnez t3, 1f
        srli t0, t0, 32
        srli t1, t1, 32
        srli t2, t2, 32
1:      slli t3, t2, 48
        bnez t3, 2f
        srli t0, t0, 16
        srli t1, t1, 16
        srli t2, t2, 16
2:      andi t3, t2, 255
        bnez t3, 3f
        srli t0, t0, 8
        srli t1, t1, 8
3:      andi t0, t0, 255
        andi t1, t1, 255
.Lof_bytes:
        sub a0, t0, t1
        ret
.Lcompare_null:
        is_null memcmp
        ends memcmp

# a0 the text, a2 where it is looked at. In 8 bytes of which none is 0, and none above 128, taking 1 from each byte leaves
# all high bits clear; where one is set, the bytes themselves are looked at.
        begins strlen, weak
        beqz a0, .Lno_text
        ld t0, .Lones
        mv a2, a0
        slli t1, t0, 7
        andi t2, a0, 7
        beqz t2, 2f
1:      lbu t2, 0(a2)
        beqz t2, .Lfound_byte
        addi a2, a2, 1
        andi t2, a2, 7
        bnez t2, 1b
2:      ld t2, 0(a2)
        sub t3, t2, t0
        and t3, t3, t1
        bnez t3, 3f
        ld t2, 8(a2)
        sub t3, t2, t0
        and t3, t3, t1
        bnez t3, 5f
        ld t2, 16(a2)
        sub t3, t2, t0
        and t3, t3, t1
        bnez t3, 4f
        ld t2, 24(a2)
        sub t3, t2, t0
        and t3, t3, t1
        addi a2, a2, 32
        beqz t3, 2b
        addi a2, a2, -24
4:      addi a2, a2, 8
5:      addi a2, a2, 8
3:      not t2, t2
        and t3, t3, t2
        bnez t3, 7f
# Some are above 128, and this is no English text: look at them all.
6:      addi a2, a2, 8
        ld t2, 0(a2)
        sub t3, t2, t0
        not t2, t2
        and t3, t3, t2
        and t3, t3, t1
        beqz t3, 6b
# The lowest bit of t3 is the high bit of the byte that is 0. A product puts the byte's number on top.
7:      neg t2, t3
        and t3, t3, t2
        srli t3, t3, 7
        ld t0, .Lnumbers
        mul t3, t3, t0
        srli t3, t3, 56
        add a2, a2, t3
.Lfound_byte:
        sub a0, a2, a0
        ret
.Lno_text:
        is_null strlen
        .balign 8
.Lones: .dword 0x0101010101010101
.Lnumbers:
        .dword 0x0001020304050607
        ends strlen
