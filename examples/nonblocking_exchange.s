# Two ranks give each other a line at the same time, by a receive that is posted first: no deadlock, whatever the order of turns.
#
# run: one --source; status 0
# run: one --source --order 1,0; status 0
#
# Both ranks do the same: IRECV, then ISEND, then some work of their own, then WAIT for both. If each began with a receive that
# waits, or with a synchronous send, both would wait for ever. Look at the two reports: they are the same, and no turn is lost in WAIT,
# for the messages came while the ranks did their own work. The buffer of an IRECV isn't to be read before WAIT has completed it: that is
# when the bytes are written.
        .ranks 2

_start: mv   s0, a1                 # the own rank
        li   t0, 1
        sub  s1, t0, s0             # the other one
        la   s2, mine
        addi t1, s0, 48
        sb   t1, 5(s2)              # "rank 0 was here" or "rank 1 .."
        la   s3, yours
        mv   a0, s3
        li   a1, 16
        mv   a2, s1
        li   a3, 7
        li   a4, 0
        li   a7, 21                 # IRECV: a1 is a request handle, the lowest free one
        ecall
        mv   s4, a1
        mv   a0, s2
        li   a1, 16
        mv   a2, s1
        li   a3, 7
        li   a4, 0
        li   a7, 19                 # ISEND
        ecall
        mv   s5, a1
        li   t0, 10                 # work of its own: the messages go meanwhile
work:   addi t0, t0, -1
        bnez t0, work
        mv   a0, s5
        li   a1, 0                  # no status is wanted
        li   a7, 23                 # WAIT for the send
        ecall
        mv   a0, s4
        la   a1, status
        ecall                       # WAIT for the receive: now the bytes are there
        la   t0, status
        ld   a1, 16(t0)             # as many as came
        mv   a0, s3
        li   a7, 1                  # PUT
        ecall
        li   a0, 0
        li   a7, 0                  # EXIT
        ecall

        .data
mine:   .ascii "rank ? was here\n"
yours:  .zero 16
        .balign 8
status: .zero 24
