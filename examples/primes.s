# The primes below 100, one a line, by trial division.
        li   s0, 2                  # the candidate
        li   s4, 10
        addi s3, sp, -16            # three bytes on the stack: tens, ones and a newline
        sb   s4, 2(s3)              # 10 is the newline too, and stays
next:   li   s1, 2                  # the divisor
try:    mul  t0, s1, s1
        bgt  t0, s0, prime          # no divisor up to the square root
        remu t0, s0, s1
        beqz t0, composite
        addi s1, s1, 1
        j    try
prime:  divu t1, s0, s4             # tens
        remu t2, s0, s4             # ones
        addi t2, t2, 48
        sb   t2, 1(s3)
        li   a1, 2                  # one digit and the newline
        addi a0, s3, 1
        beqz t1, put
        addi t1, t1, 48
        sb   t1, 0(s3)
        li   a1, 3
        mv   a0, s3
put:    li   a7, 1                  # PUT
        ecall
composite:
        addi s0, s0, 1
        li   t0, 100
        blt  s0, t0, next
        li   a0, 0                  # EXIT's code
        li   a7, 0                  # EXIT
        ecall
