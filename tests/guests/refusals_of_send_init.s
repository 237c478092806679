# SEND_INIT: each code, and of two faults the one that is looked at first; then FULL.
# run: one --source; status 0
# behind: repeated_calls.guest
        .ranks 2
        .data
tables: .dword rank0, rank1
text:   .ascii "0123456789abcdef"
next:   .ascii "ABCDEFGHIJKLMNOP"
last:   .ascii "QRSTUVWXYZ!@$%&*"
status: .dword 5, 5, 5
seen:   .ascii "????????????????"
more:   .ascii "????????????????"
sts:    .dword 5, 5, 5, 5, 5, 5, 5, 5, 5, 5, 5, 5
rank0:  .dword 30, text, 1, 1, 7, 2, 0                  # SEND_INIT: no such communicator
        .dword 30, text, 5000, 9, -5, 8, 0              # SEND_INIT: communicator, rank, tag and count
        .dword 30, text, 1, 2, 7, 0, 0                  # SEND_INIT: no such rank
        .dword 30, text, 1, -1, 7, 0, 0                 # SEND_INIT: no wildcard
        .dword 30, text, 1, 2, -1, 0, 0                 # SEND_INIT: rank and tag
        .dword 30, text, 1, 1, -1, 0, 0                 # SEND_INIT: no wildcard
        .dword 30, text, 1, 1, 32768, 0, 0              # SEND_INIT
        .dword 30, text, 4097, 1, 32768, 0, 0           # SEND_INIT: tag and count
        .dword 30, text, 4097, 1, 7, 0, 0               # SEND_INIT
        .dword 30, 65536, 4097, 1, 7, 0, 0              # SEND_INIT: count and buffer
        .dword 30, 65535, 2, 1, 7, 0, 0                 # SEND_INIT
        .dword 30, -1, 1, 1, 7, 0, 0                    # SEND_INIT
        .dword 30, text, 1, -2, -1, 0, 0                # SEND_INIT: the null process and a tag
        .dword 30, text, 4097, -2, 7, 0, 0              # SEND_INIT: the null process and a count
        .dword 30, 65536, 1, -2, 7, 0, 0                # SEND_INIT: the null process and a buffer
        .dword 30, text, 1, -2, 7, 2, 0                 # SEND_INIT: the null process and a communicator
        .dword 30, text, 1, -2, 7, 0, 0                 # SEND_INIT: the null process
        .dword 30, -1, 0, 1, 7, 0, 0                    # SEND_INIT: no bytes
        .dword 30, text, 4096, 1, 32767, 0, 0           # SEND_INIT
        .dword 104, 252, 0, 0, 0, 0, 0
        .dword 30, text, 1, 1, 7, 0, 0                  # SEND_INIT
        .dword 30, text, 1, 1, 7, 0, 0                  # SEND_INIT: 255 handles are open
        .dword 30, text, 1, -2, 7, 0, 0                 # SEND_INIT
        .dword 30, text, 4097, 1, 7, 0, 0               # SEND_INIT: other faults are looked at before
        .dword 19, text, 1, 1, 7, 0, 0                  # ISEND
        .dword 33, 9, 0, 0, 0, 0, 0                     # REQUEST_FREE
        .dword 30, text, 1, 1, 7, 0, 0                  # SEND_INIT: the lowest free one
        .dword -1
rank1:  .dword -1
line:   .zero 512
