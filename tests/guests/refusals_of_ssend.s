# SSEND: each code, and of two faults the one that is looked at first.
# run: one --source; status 0
# behind: calls.guest
        .ranks 2
        .data
tables: .dword rank0, rank1
text:   .ascii "0123456789abcdef"
status: .dword 5, 5, 5
seen:   .ascii "????????????????"
more:   .ascii "????????????????"
rank0:  .dword 17, text, 1, 1, 7, 2, 0                  # SSEND: no such communicator
        .dword 17, text, 5000, 9, -5, 8, 0              # SSEND: communicator, rank, tag and count
        .dword 17, text, 1, 2, 7, 0, 0                  # SSEND: no such rank
        .dword 17, text, 1, -1, 7, 0, 0                 # SSEND: no wildcard
        .dword 17, text, 1, 2, -1, 0, 0                 # SSEND: rank and tag
        .dword 17, text, 1, 1, -1, 0, 0                 # SSEND: no wildcard
        .dword 17, text, 1, 1, 32768, 0, 0              # SSEND
        .dword 17, text, 4097, 1, 32768, 0, 0           # SSEND: tag and count
        .dword 17, text, 4097, 1, 7, 0, 0               # SSEND
        .dword 17, 65536, 4097, 1, 7, 0, 0              # SSEND: count and buffer
        .dword 17, 65535, 2, 1, 7, 0, 0                 # SSEND
        .dword 17, -1, 1, 1, 7, 0, 0                    # SSEND
        .dword 17, text, 1, -2, -1, 0, 0                # SSEND: the null process and a tag
        .dword 17, text, 4097, -2, 7, 0, 0              # SSEND: the null process and a count
        .dword 17, 65536, 1, -2, 7, 0, 0                # SSEND: the null process and a buffer
        .dword 17, text, 1, -2, 7, 2, 0                 # SSEND: the null process and a communicator
        .dword 17, text, 1, -2, 7, 0, 0                 # SSEND: the null process
        .dword 17, -1, 0, 1, 7, 0, 0                    # SSEND: no bytes; waits for the receive
        .dword 17, text, 3, 1, 32767, 0, 0              # SSEND
        .dword -1
rank1:  .dword 18, seen, 8, 0, 7, 0, status             # RECV
        .dword 100, status, 3, 0, 0, 0, 0
        .dword 18, seen, 8, -1, -1, 0, status           # RECV
        .dword 100, status, 3, 0, 0, 0, 0
        .dword -1
line:   .zero 512
