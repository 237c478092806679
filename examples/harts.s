# Four harts of one rank add to two counters in their shared memory: one unguarded, one with taking turns.
#
# run: one --source; status 0
# run: one --source --plan 0,0,0,1,1,1,2,2,2,3,3,3; status 0
# run: one --source --plan 3,2,1,0; status 0
# run: one --source --plan 0,1,1,2,3,3,3; status 0
#
# Each hart adds 1 ten times to each counter; an addition is a load, an add and a store. By default the harts take turns one
# instruction each: all four load the same number before one of them stores, so of four additions three are lost, and the unguarded
# counter ends at 10. With three turns each in the plan no hart is interrupted between its load and its store, and it ends
# at 40. The guarded counter ends at 40 under every plan: a hart waits until the word `turn` has its number, and then hands the turn on.
# The memory of a rank is sequentially consistent between its harts, so no fence is needed.
        .harts 4

_start: mv   s0, a0                 # every hart begins here; at the start a0 is its number, as the call HART tells it
        la   s1, open
        la   s2, shut
        la   s3, turn
        li   s4, 10                 # additions to the open counter
        li   s5, 10                 # additions to the guarded one
        addi s6, s0, 1
        andi s6, s6, 3              # who comes next

# the unguarded counter
race:   beqz s4, guard
        ld   t0, 0(s1)
        addi t0, t0, 1
        sd   t0, 0(s1)              # another hart may have stored meanwhile: its addition is lost
        addi s4, s4, -1
        j    race

# the guarded counter
guard:  beqz s5, done
wait:   ld   t1, 0(s3)
        bne  t1, s0, wait           # not this hart's turn
        ld   t0, 0(s2)
        addi t0, t0, 1
        sd   t0, 0(s2)
        sd   s6, 0(s3)              # the next hart's turn
        addi s5, s5, -1
        j    guard

# each hart but 0 ends; hart 0 waits until the guarded counter shows that all have done their additions
done:   bnez s0, end
all:    ld   t0, 0(s2)
        li   t1, 40
        bne  t0, t1, all
        la   a0, line
        ld   t0, 0(s1)
        addi a1, a0, 5
        jal  digits
        ld   t0, 0(s2)
        addi a1, a0, 17
        jal  digits
        li   a1, 20
        li   a7, 1                  # PUT
        ecall
end:    li   a0, 0
        li   a7, 0                  # EXIT ends this hart alone
        ecall

# digits: t0, from 0 to 99, becomes two digits at a1
digits: li   t2, 10
        divu t3, t0, t2
        addi t3, t3, 48
        sb   t3, 0(a1)
        remu t3, t0, t2
        addi t3, t3, 48
        sb   t3, 1(a1)
        ret

        .data
open:   .dword 0
shut:   .dword 0
turn:   .dword 0
line:   .ascii "open 00, guarded 00\n"
