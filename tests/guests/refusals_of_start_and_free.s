# START and REQUEST_FREE: each code.
# run: one --source; status 0
# behind: calls.guest
        .ranks 2
        .data
tables: .dword rank0, rank1
text:   .ascii "0123456789abcdef"
next:   .ascii "ABCDEFGHIJKLMNOP"
last:   .ascii "QRSTUVWXYZ!@$%&*"
status: .dword 5, 5, 5
seen:   .ascii "????????????????"
more:   .ascii "????????????????"
sts:    .dword 5, 5, 5, 5, 5, 5, 5, 5, 5, 5, 5, 5
rank0:  .dword 32, 0, 0, 0, 0, 0, 0                     # START: the null request
        .dword 32, 1, 0, 0, 0, 0, 0                     # START: nothing is open
        .dword 32, 256, 0, 0, 0, 0, 0                   # START
        .dword 32, -1, 0, 0, 0, 0, 0                    # START
        .dword 33, 0, 0, 0, 0, 0, 0                     # REQUEST_FREE
        .dword 33, 1, 0, 0, 0, 0, 0                     # REQUEST_FREE
        .dword 33, -1, 0, 0, 0, 0, 0                    # REQUEST_FREE
        .dword 21, seen, 8, 1, 7, 0, 0                  # IRECV: an ordinary request
        .dword 32, 1, 0, 0, 0, 0, 0                     # START
        .dword 33, 1, 0, 0, 0, 0, 0                     # REQUEST_FREE: it is active
        .dword 19, text, 1, 1, 7, 0, 0                  # ISEND
        .dword 32, 2, 0, 0, 0, 0, 0                     # START
        .dword 33, 2, 0, 0, 0, 0, 0                     # REQUEST_FREE: active until a TEST or WAIT
        .dword 23, 2, 0, 0, 0, 0, 0                     # WAIT
        .dword 33, 2, 0, 0, 0, 0, 0                     # REQUEST_FREE: it is gone
        .dword 30, text, 1, 1, 7, 0, 0                  # SEND_INIT
        .dword 32, 2, 0, 0, 0, 0, 0                     # START
        .dword 32, 2, 0, 0, 0, 0, 0                     # START: active until a TEST or WAIT, though the bytes are sent
        .dword 33, 2, 0, 0, 0, 0, 0                     # REQUEST_FREE
        .dword 22, 2, status, 0, 0, 0, 0                # TEST
        .dword 100, status, 3, 0, 0, 0, 0
        .dword 22, 2, status, 0, 0, 0, 0                # TEST: inactive
        .dword 100, status, 3, 0, 0, 0, 0
        .dword 23, 2, status, 0, 0, 0, 0                # WAIT: inactive
        .dword 32, 2, 0, 0, 0, 0, 0                     # START
        .dword 23, 2, 0, 0, 0, 0, 0                     # WAIT
        .dword 33, 2, 0, 0, 0, 0, 0                     # REQUEST_FREE
        .dword 22, 2, 0, 0, 0, 0, 0                     # TEST
        .dword 31, seen, 8, -2, 7, 0, 0                 # RECV_INIT: the null process
        .dword 22, 2, status, 0, 0, 0, 0                # TEST: inactive
        .dword 100, status, 3, 0, 0, 0, 0
        .dword 32, 2, 0, 0, 0, 0, 0                     # START
        .dword 32, 2, 0, 0, 0, 0, 0                     # START
        .dword 33, 2, 0, 0, 0, 0, 0                     # REQUEST_FREE
        .dword 22, 2, status, 0, 0, 0, 0                # TEST: a receive of the null process
        .dword 100, status, 3, 0, 0, 0, 0
        .dword 22, 2, status, 0, 0, 0, 0                # TEST: inactive
        .dword 100, status, 3, 0, 0, 0, 0
        .dword 33, 2, 0, 0, 0, 0, 0                     # REQUEST_FREE
        .dword 30, text, 1, -2, 7, 0, 0                 # SEND_INIT: the null process
        .dword 32, 2, 0, 0, 0, 0, 0                     # START
        .dword 32, 2, 0, 0, 0, 0, 0                     # START
        .dword 22, 2, status, 0, 0, 0, 0                # TEST
        .dword 100, status, 3, 0, 0, 0, 0
        .dword 33, 2, 0, 0, 0, 0, 0                     # REQUEST_FREE
        .dword 22, 1, 0, 0, 0, 0, 0                     # TEST: the receive is still there
        .dword -1
rank1:  .dword -1
line:   .zero 512
