# RECV_INIT: each code, and of two faults the one that is looked at first; then FULL.
# run: one --source; status 0
# behind: repeated_calls.guest
        .ranks 2
        .data
tables: .dword rank0, rank1
text:   .ascii "0123456789abcdef"
next:   .ascii "ABCDEFGHIJKLMNOP"
last:   .ascii "QRSTUVWXYZ!@$%&*"
status: .dword 5, 5, 5
seen:   .ascii "????????????????"
more:   .ascii "????????????????"
sts:    .dword 5, 5, 5, 5, 5, 5, 5, 5, 5, 5, 5, 5
rank0:  .dword 31, seen, 8, 1, 7, 2, 0                  # RECV_INIT: no such communicator
        .dword 31, seen, 5000, 9, -5, 8, 0              # RECV_INIT: everything
        .dword 31, seen, 8, 2, 7, 0, 0                  # RECV_INIT: no such rank
        .dword 31, seen, 8, -3, -2, 0, 0                # RECV_INIT: rank and tag
        .dword 31, seen, 8, -1, -2, 0, 0                # RECV_INIT
        .dword 31, seen, 8, -1, 32768, 0, 0             # RECV_INIT
        .dword 31, seen, 4097, -1, 32768, 0, 0          # RECV_INIT: tag and count
        .dword 31, seen, 4097, -1, -1, 0, 0             # RECV_INIT
        .dword 31, 0, 4097, -1, -1, 0, 0                # RECV_INIT: count and buffer
        .dword 31, 0, 4, -1, -1, 0, 0                   # RECV_INIT: the text
        .dword 31, 65535, 2, -1, -1, 0, 0               # RECV_INIT
        .dword 31, -1, 2, -1, -1, 0, 0                  # RECV_INIT
        .dword 31, seen, 8, -2, -5, 0, 0                # RECV_INIT: the null process and a tag
        .dword 31, seen, 4097, -2, 7, 0, 0              # RECV_INIT: the null process and a count
        .dword 31, 0, 4, -2, 7, 0, 0                    # RECV_INIT: the null process and a buffer
        .dword 31, seen, 8, -2, 7, 9, 0                 # RECV_INIT: the null process and a communicator
        .dword 31, seen, 8, -2, 7, 0, 0                 # RECV_INIT: the null process
        .dword 31, -1, 0, 1, 7, 0, 0                    # RECV_INIT: no bytes
        .dword 31, seen, 4096, -1, -1, 0, 0             # RECV_INIT
        .dword 104, 252, 0, 0, 0, 0, 0
        .dword 31, seen, 8, 1, 7, 0, 0                  # RECV_INIT
        .dword 31, seen, 8, 1, 7, 0, 0                  # RECV_INIT: 255 handles are open
        .dword 21, seen, 8, 1, 7, 0, 0                  # IRECV
        .dword 33, 255, 0, 0, 0, 0, 0                   # REQUEST_FREE
        .dword 31, seen, 8, 1, 7, 0, 0                  # RECV_INIT
        .dword -1
rank1:  .dword -1
line:   .zero 512
