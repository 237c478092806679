# Rank 0 receives three numbers from whoever sends, and two are sent: a receive whose senders have ended.
#
# run: one --source --until-stuck; status 4
# run: one --source --budget 1000 --why; status 4
#
# Ranks 1 and 2 send one number each and end. Rank 0's third receive would take a message from any rank, itself too; but
# it waits, and the others have ended, so none will come. A rank that has ended is in the verdict's list: it is one of
# those who could have sent, and won't.
        .ranks 3
        .globl sum
        .globl send

_start: bnez a1, send
        li   s1, 3                  # numbers: one more than there are senders
        li   s2, 0
sum:    la   a0, room
        li   a1, 8
        li   a2, -1                 # from any rank
        li   a3, 7
        li   a4, 0
        li   a5, 0
        li   a7, 18                 # RECV
        ecall
        la   t0, room
        ld   t1, 0(t0)
        add  s2, s2, t1
        addi s1, s1, -1
        bnez s1, sum
        mv   a0, s2
        li   a7, 0                  # EXIT with the sum
        ecall

# ranks 1 and 2
send:   la   a0, room
        sd   a1, 0(a0)              # the own rank
        li   a1, 8
        li   a2, 0                  # to rank 0
        li   a3, 7
        li   a4, 0
        li   a7, 16                 # SEND
        ecall
        li   a0, 0
        li   a7, 0
        ecall

        .data
        .balign 8
room:   .zero 8
