# ISSEND: each code, and of two faults the one that is looked at first; then when it is complete.
# run: one --source; status 0
# behind: calls.guest
        .ranks 2
        .comm 0, 1
        .data
tables: .dword rank0, rank1
text:   .ascii "0123456789abcdef"
status: .dword 5, 5, 5
seen:   .ascii "????????????????"
more:   .ascii "????????????????"
rank0:  .dword 20, text, 1, 1, 7, 2, 0                  # ISSEND: no such communicator
        .dword 20, text, 5000, 9, -5, 8, 0              # ISSEND: communicator, rank, tag and count
        .dword 20, text, 1, 2, 7, 0, 0                  # ISSEND: no such rank
        .dword 20, text, 1, -1, 7, 0, 0                 # ISSEND: no wildcard
        .dword 20, text, 1, 2, -1, 0, 0                 # ISSEND: rank and tag
        .dword 20, text, 1, 1, -1, 0, 0                 # ISSEND: no wildcard
        .dword 20, text, 1, 1, 32768, 0, 0              # ISSEND
        .dword 20, text, 4097, 1, 32768, 0, 0           # ISSEND: tag and count
        .dword 20, text, 4097, 1, 7, 0, 0               # ISSEND
        .dword 20, 65536, 4097, 1, 7, 0, 0              # ISSEND: count and buffer
        .dword 20, 65535, 2, 1, 7, 0, 0                 # ISSEND
        .dword 20, -1, 1, 1, 7, 0, 0                    # ISSEND
        .dword 20, text, 1, -2, -1, 0, 0                # ISSEND: the null process and a tag
        .dword 20, text, 4097, -2, 7, 0, 0              # ISSEND: the null process and a count
        .dword 20, 65536, 1, -2, 7, 0, 0                # ISSEND: the null process and a buffer
        .dword 20, text, 1, -2, 7, 2, 0                 # ISSEND: the null process and a communicator
        .dword 20, text, 1, -2, 7, 0, 0                 # ISSEND: the null process
        .dword 22, 1, status, 0, 0, 0, 0                # TEST
        .dword 100, status, 3, 0, 0, 0, 0
        .dword 20, text, 3, 1, 7, 0, 0                  # ISSEND
        .dword 22, 1, status, 0, 0, 0, 0                # TEST: no receive yet
        .dword 100, status, 3, 0, 0, 0, 0               # as they were
        .dword 102, 1, 0, 0, 0, 0, 0
        .dword 103, 1, 0, 0, 0, 0, 0
        .dword 22, 1, status, 0, 0, 0, 0                # TEST: received
        .dword 100, status, 3, 0, 0, 0, 0
        .dword -1
rank1:  .dword 103, 0, 0, 0, 0, 0, 0
        .dword 18, seen, 8, 0, 7, 0, status             # RECV
        .dword 100, status, 3, 0, 0, 0, 0
        .dword 102, 0, 0, 0, 0, 0, 0
        .dword -1
line:   .zero 512
