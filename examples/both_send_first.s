# Two ranks give each other a line by synchronous sends, and both send first: a deadlock.
#
# run: one --source --until-stuck; status 4
# run: one --source --budget 1000 --why; status 4
#
# An SSEND waits until its message has a receive, and each rank posts its receive behind its SSEND. Both messages are
# sent, and held: look for them behind the harts, one at each rank that nobody receives. By SEND, which never waits, the
# guest runs to its end; a program that leans on that is unsafe (MPI 4.1, 3.5).
        .ranks 2
        .globl give
        .globl take

_start: li   t0, 1
        sub  s1, t0, a1             # the other rank
give:   la   a0, line
        li   a1, 16
        mv   a2, s1
        li   a3, 7
        li   a4, 0
        li   a7, 17                 # SSEND
        ecall
take:   la   a0, room
        li   a1, 16
        mv   a2, s1
        li   a3, 7
        li   a4, 0
        li   a5, 0
        li   a7, 18                 # RECV
        ecall
        li   a0, 0
        li   a7, 0                  # EXIT
        ecall

        .data
line:   .ascii "each sends first"
room:   .zero 16
