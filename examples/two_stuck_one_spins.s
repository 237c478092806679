# Ranks 1 and 2 receive from one another before either sends, while rank 0 spins: a deadlock of some ranks.
#
# run: one --source --budget 100 --why; status 4
#
# No run comes to an end, since rank 0 spins for ever. But ranks 1 and 2 are stuck for good, whatever rank 0 does: the
# verdict names them alone, and so does `rvmc explore --source`, with status 7 (docs/EXPLORE.md).
        .ranks 3
        .globl take

_start: beqz a1, spin
        li   t0, 3
        sub  s1, t0, a1             # of ranks 1 and 2 the other
take:   la   a0, room
        li   a1, 8
        mv   a2, s1
        li   a3, 7
        li   a4, 0
        li   a5, 0
        li   a7, 18                 # RECV
        ecall
        li   a0, 0
        li   a7, 0                  # EXIT
        ecall
spin:   j    spin

        .data
room:   .zero 8
