# A persistent pair in three phases: the bytes are those that the buffer has at START, and each phase gets its own.
# run: one --source; status 0
# behind: calls.guest
        .ranks 2
        .comm 0, 1
        .data
tables: .dword rank0, rank1
text:   .ascii "0123456789abcdef"
next:   .ascii "ABCDEFGHIJKLMNOP"
last:   .ascii "QRSTUVWXYZ!@$%&*"
status: .dword 5, 5, 5
seen:   .ascii "????????????????"
more:   .ascii "????????????????"
sts:    .dword 5, 5, 5, 5, 5, 5, 5, 5, 5, 5, 5, 5
rank0:  .dword 30, text, 16, 1, 7, 0, 0                 # SEND_INIT
        .dword 32, 1, 0, 0, 0, 0, 0                     # START
        .dword 16, next, 16, 0, 1, 1, 0                 # SEND: to itself
        .dword 18, text, 16, 0, 1, 1, 0                 # RECV: the buffer has the second phase's bytes
        .dword 23, 1, status, 0, 0, 0, 0                # WAIT
        .dword 100, status, 3, 0, 0, 0, 0
        .dword 32, 1, 0, 0, 0, 0, 0                     # START
        .dword 16, last, 16, 0, 1, 1, 0                 # SEND
        .dword 18, text, 16, 0, 1, 1, 0                 # RECV: the third phase's
        .dword 32, 1, 0, 0, 0, 0, 0                     # START: still active
        .dword 22, 1, 0, 0, 0, 0, 0                     # TEST
        .dword 32, 1, 0, 0, 0, 0, 0                     # START
        .dword 23, 1, 0, 0, 0, 0, 0                     # WAIT
        .dword 33, 1, 0, 0, 0, 0, 0                     # REQUEST_FREE
        .dword 32, 1, 0, 0, 0, 0, 0                     # START
        .dword -1
rank1:  .dword 31, seen, 16, 0, 7, 0, 0                 # RECV_INIT
        .dword 32, 1, 0, 0, 0, 0, 0                     # START
        .dword 23, 1, status, 0, 0, 0, 0                # WAIT
        .dword 100, status, 3, 0, 0, 0, 0
        .dword 101, seen, 16, 0, 0, 0, 0
        .dword 32, 1, 0, 0, 0, 0, 0                     # START
        .dword 32, 1, 0, 0, 0, 0, 0                     # START: still active
        .dword 23, 1, 0, 0, 0, 0, 0                     # WAIT
        .dword 101, seen, 16, 0, 0, 0, 0
        .dword 32, 1, 0, 0, 0, 0, 0                     # START
        .dword 23, 1, 0, 0, 0, 0, 0                     # WAIT
        .dword 101, seen, 16, 0, 0, 0, 0
        .dword 33, 1, 0, 0, 0, 0, 0                     # REQUEST_FREE
        .dword -1
line:   .zero 512
