# A standard send returns at once; a synchronous one waits until its message has a receive.
#
# run: one --source; status 0
#
# Rank 1 does something else for a while before it receives. Rank 0 measures how long its two sends take: not in time, which a guest
# doesn't see, but by what a second hart counts meanwhile. Hart 1 of rank 0 counts up in shared memory; hart 0 reads the counter before and
# after each send. Look at the two numbers: during SEND the counter moved once or twice, since the call is one turn; during SSEND it moved as
# long as rank 1 worked. So SSEND's return tells that a receive has the message, and SEND's return tells nothing of the other side.
        .ranks 2
        .harts 2

_start: bnez a1, later
        la   s0, clock
        bnez a0, ticks
        li   s1, 16                 # SEND
        la   s2, line
        jal  timed
        li   s1, 17                 # SSEND
        addi s2, s2, 10
        jal  timed
        li   t0, 1
        sd   t0, 8(s0)              # hart 1 may stop
        la   a0, line
        li   a1, 20
        li   a7, 1                  # PUT
        ecall
        j    end

# timed: sends 8 bytes to rank 1 by the call s1, and writes at 6(s2) how far the clock moved, as three digits
timed:  ld   s3, 0(s0)
        mv   a0, s0
        li   a1, 8
        li   a2, 1                  # to rank 1
        li   a3, 7
        li   a4, 0
        mv   a7, s1
        ecall
        ld   t0, 0(s0)
        sub  t0, t0, s3
        li   t1, 10
        addi t2, s2, 8
        addi t3, s2, 5
digit:  remu t4, t0, t1
        addi t4, t4, 48
        sb   t4, 0(t2)
        divu t0, t0, t1
        addi t2, t2, -1
        bne  t2, t3, digit
        ret

# hart 1 of rank 0: counts until it is told to stop
ticks:  ld   t0, 0(s0)
        addi t0, t0, 1
        sd   t0, 0(s0)
        ld   t1, 8(s0)
        beqz t1, ticks
        j    end

# rank 1: hart 0 works for a while, and then receives both messages
later:  bnez a0, end
        li   t0, 500
work:   addi t0, t0, -1
        bnez t0, work
        jal  take
        jal  take
end:    li   a0, 0
        li   a7, 0                  # EXIT
        ecall
take:   addi a0, sp, -16
        li   a1, 8
        li   a2, 0
        li   a3, 7
        li   a4, 0
        li   a5, 0
        li   a7, 18                 # RECV
        ecall
        ret

        .data
clock:  .dword 0, 0
line:   .ascii "SEND  000\nSSEND 000\n"
