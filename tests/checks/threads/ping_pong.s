# Two ranks wait for one another's message, a thousand times each.
#
# A message is a number of 8 bytes. Rank 0 sends 1; who receives a number adds 1 and sends the sum back, until each rank
# has received a thousand. So rank 1 gets 1, 3, .., 1999 and rank 0 gets 2, 4, .., 2000, whatever the order of turns: at
# each moment one of the two waits for the other. At its end a rank puts out how many of its numbers were the ones that
# were due, and the last of them.
        .ranks 2

_start: mv   s0, a1                 # the own rank
        xori s1, s0, 1              # the other one
        la   s2, number
        li   s3, 1000               # messages to come
        li   s4, 0                  # those that had the number that was due
        addi s5, s1, 1              # the number that is due: 2 for rank 0, 1 for rank 1
        beqz s0, give               # rank 0 begins

take:   mv   a0, s2
        li   a1, 8
        mv   a2, s1                 # from the other one
        li   a3, 3                  # the tag
        li   a4, 0
        li   a5, 0                  # no status is wanted
        li   a7, 18                 # RECV
        ecall
        ld   s6, 0(s2)
        bne  s6, s5, next
        addi s4, s4, 1
next:   addi s5, s5, 2
        addi s3, s3, -1
        bnez s3, give
        beqz s0, show               # rank 0 ends with a message that it gets, rank 1 with one that it sends
give:   ld   t0, 0(s2)
        addi t0, t0, 1
        sd   t0, 0(s2)
        mv   a0, s2
        li   a1, 8
        mv   a2, s1                 # to the other one
        li   a3, 3
        li   a4, 0
        li   a7, 16                 # SEND
        ecall
        bnez s3, take

show:   la   s1, line
        mv   t0, s4
        addi t1, s1, 9
        jal  digits
        mv   t0, s6
        addi t1, s1, 20
        jal  digits
        mv   a0, s1
        li   a1, 22
        li   a7, 1                  # PUT
        ecall
        li   a0, 0
        li   a7, 0                  # EXIT
        ecall

# digits: t0, from 0 to 9999, becomes four digits, of which the last stands at t1
digits: li   t2, 10
        addi t3, t1, -4
digit:  remu t4, t0, t2
        addi t4, t4, 48
        sb   t4, 0(t1)
        divu t0, t0, t2
        addi t1, t1, -1
        bne  t1, t3, digit
        ret

        .data
number: .dword 0
line:   .ascii "right 0000, last 0000\n"
