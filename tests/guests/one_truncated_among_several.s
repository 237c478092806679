# TESTALL and WAITALL over a synchronous send, receives of which one is truncated, a persistent one, a null and an
# inactive request.
# run: one --source; status 0
# behind: calls.guest
        .ranks 2
        .comm 0, 1
        .data
tables: .dword rank0, rank1
text:   .ascii "0123456789abcdef"
next:   .ascii "ABCDEFGHIJKLMNOP"
last:   .ascii "QRSTUVWXYZ!@$%&*"
status: .dword 5, 5, 5
seen:   .ascii "????????????????"
more:   .ascii "????????????????"
sts:    .dword 5, 5, 5, 5, 5, 5, 5, 5, 5, 5, 5, 5
sts6:   .dword 5, 5, 5, 5, 5, 5, 5, 5, 5
sts6b:  .dword 5, 5, 5, 5, 5, 5, 5, 5, 5
six:    .dword 1, 2, 3, 4, 0, 5
two:    .dword 1, 4
tail:   .dword 4, 0, 5
rank0:  .dword 16, text, 4, 1, 1, 0, 0                  # SEND
        .dword 16, text, 10, 1, 2, 0, 0                 # SEND
        .dword 16, next, 2, 1, 3, 0, 0                  # SEND
        .dword 102, 1, 0, 0, 0, 0, 0
        .dword 103, 1, 0, 0, 0, 0, 0
        .dword 18, seen, 16, 1, 9, 0, status            # RECV
        .dword 16, text, 10, 1, 2, 0, 0                 # SEND
        .dword 16, text, 1, 1, 3, 0, 0                  # SEND
        .dword 102, 1, 0, 0, 0, 0, 0
        .dword -1
rank1:  .dword 103, 0, 0, 0, 0, 0, 0
        .dword 20, text, 5, 0, 9, 0, 0                  # ISSEND
        .dword 21, seen, 8, 0, 1, 0, 0                  # IRECV
        .dword 21, more, 4, 0, 2, 0, 0                  # IRECV
        .dword 31, seen, 8, 0, 3, 0, 0                  # RECV_INIT: into the first one's buffer
        .dword 32, 4, 0, 0, 0, 0, 0                     # START
        .dword 30, text, 1, 0, 8, 0, 0                  # SEND_INIT: inactive
        .dword 34, six, 6, sts6, 0, 0, 0                # TESTALL: the send has no receive
        .dword 100, sts6, 3, 0, 0, 0, 0
        .dword 102, 0, 0, 0, 0, 0, 0
        .dword 35, six, 6, sts6, 0, 0, 0                # WAITALL
        .dword 100, sts6, 9, 0, 0, 0, 0
        .dword 100, sts6b, 9, 0, 0, 0, 0
        .dword 101, seen, 8, 0, 0, 0, 0
        .dword 101, more, 8, 0, 0, 0, 0                 # four bytes and no more
        .dword 21, more, 2, -1, 2, 0, 0                 # IRECV: the lowest free handle
        .dword 32, 4, 0, 0, 0, 0, 0                     # START
        .dword 103, 0, 0, 0, 0, 0, 0
        .dword 34, two, 2, sts, 0, 0, 0                 # TESTALL
        .dword 100, sts, 6, 0, 0, 0, 0
        .dword 101, seen, 4, 0, 0, 0, 0
        .dword 101, more, 8, 0, 0, 0, 0
        .dword 34, six, 6, 0, 0, 0, 0                   # TESTALL: 2 and 3 are gone
        .dword 34, tail, 3, sts, 0, 0, 0                # TESTALL
        .dword -1
line:   .zero 512
