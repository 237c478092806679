# ISEND: each code, and of two faults the one that is looked at first; then the lowest free handles.
# run: one --source; status 0
# behind: calls.guest
        .ranks 2
        .data
tables: .dword rank0, rank1
text:   .ascii "0123456789abcdef"
status: .dword 5, 5, 5
seen:   .ascii "????????????????"
more:   .ascii "????????????????"
rank0:  .dword 19, text, 1, 1, 7, 2, 0                  # ISEND: no such communicator
        .dword 19, text, 5000, 9, -5, 8, 0              # ISEND: communicator, rank, tag and count
        .dword 19, text, 1, 2, 7, 0, 0                  # ISEND: no such rank
        .dword 19, text, 1, -1, 7, 0, 0                 # ISEND: no wildcard
        .dword 19, text, 1, 2, -1, 0, 0                 # ISEND: rank and tag
        .dword 19, text, 1, 1, -1, 0, 0                 # ISEND: no wildcard
        .dword 19, text, 1, 1, 32768, 0, 0              # ISEND
        .dword 19, text, 4097, 1, 32768, 0, 0           # ISEND: tag and count
        .dword 19, text, 4097, 1, 7, 0, 0               # ISEND
        .dword 19, 65536, 4097, 1, 7, 0, 0              # ISEND: count and buffer
        .dword 19, 65535, 2, 1, 7, 0, 0                 # ISEND
        .dword 19, -1, 1, 1, 7, 0, 0                    # ISEND
        .dword 19, text, 1, -2, -1, 0, 0                # ISEND: the null process and a tag
        .dword 19, text, 4097, -2, 7, 0, 0              # ISEND: the null process and a count
        .dword 19, 65536, 1, -2, 7, 0, 0                # ISEND: the null process and a buffer
        .dword 19, text, 1, -2, 7, 2, 0                 # ISEND: the null process and a communicator
        .dword 19, text, 1, -2, 7, 0, 0                 # ISEND: the null process
        .dword 19, -1, 0, 1, 7, 0, 0                    # ISEND: no bytes
        .dword 19, text, 3, 1, 32767, 0, 0              # ISEND
        .dword 22, 2, status, 0, 0, 0, 0                # TEST: a standard send is complete
        .dword 100, status, 3, 0, 0, 0, 0
        .dword 19, text, 4, 1, 1, 0, 0                  # ISEND: the lowest free one
        .dword 22, 1, status, 0, 0, 0, 0                # TEST: to the null process
        .dword 100, status, 3, 0, 0, 0, 0
        .dword 23, 2, status, 0, 0, 0, 0                # WAIT
        .dword 100, status, 3, 0, 0, 0, 0
        .dword 23, 3, 0, 0, 0, 0, 0                     # WAIT
        .dword 23, 3, 0, 0, 0, 0, 0                     # WAIT: it is completed
        .dword -1
rank1:  .dword 18, seen, 8, 0, 7, 0, status             # RECV
        .dword 100, status, 3, 0, 0, 0, 0
        .dword 18, seen, 8, -1, -1, 0, status           # RECV
        .dword 100, status, 3, 0, 0, 0, 0
        .dword 18, seen, 8, -1, -1, 0, status           # RECV
        .dword 100, status, 3, 0, 0, 0, 0
        .dword -1
line:   .zero 512
