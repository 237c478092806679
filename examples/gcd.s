# Prints the greatest common divisor of 1071 and 462. The names of its two routines stay in the image as symbols, so that
# `rvmc asm <gcd.s | rvmc dis` tells where each begins: see gcd.listing.
        .globl gcd
        .globl put_number
        li   a0, 1071
        li   a1, 462
        jal  gcd
        jal  put_number
        li   a0, 0                  # EXIT's code
        li   a7, 0                  # EXIT
        ecall

# a0 and a1 to their greatest common divisor, by Euclid's rule
gcd:    beqz a1, found
        remu t0, a0, a1
        mv   a0, a1
        mv   a1, t0
        j    gcd
found:  ret

# puts out a0 in decimal digits, and a newline
put_number:
        addi t0, sp, -1             # below the end of the stack, from the last byte to the first
        li   t1, 10
        sb   t1, 0(t0)              # the newline
digit:  remu t2, a0, t1
        divu a0, a0, t1
        addi t2, t2, 48             # the digit in ASCII
        addi t0, t0, -1
        sb   t2, 0(t0)
        bnez a0, digit
        mv   a0, t0                 # PUT's buffer
        sub  a1, sp, t0             # PUT's count
        li   a7, 1                  # PUT
        ecall
        ret
