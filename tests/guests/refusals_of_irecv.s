# IRECV: each code, and of two faults the one that is looked at first; then its handles.
# run: one --source; status 0
# behind: calls.guest
        .ranks 2
        .data
tables: .dword rank0, rank1
text:   .ascii "0123456789abcdef"
status: .dword 5, 5, 5
seen:   .ascii "????????????????"
more:   .ascii "????????????????"
rank0:  .dword 21, seen, 8, 1, 7, 2, 0                  # IRECV: no such communicator
        .dword 21, seen, 5000, 9, -5, 8, 0              # IRECV: everything
        .dword 21, seen, 8, 2, 7, 0, 0                  # IRECV: no such rank
        .dword 21, seen, 8, -3, -2, 0, 0                # IRECV: rank and tag
        .dword 21, seen, 8, -1, -2, 0, 0                # IRECV
        .dword 21, seen, 8, -1, 32768, 0, 0             # IRECV
        .dword 21, seen, 4097, -1, 32768, 0, 0          # IRECV: tag and count
        .dword 21, seen, 4097, -1, -1, 0, 0             # IRECV
        .dword 21, 0, 4097, -1, -1, 0, 0                # IRECV: count and buffer
        .dword 21, 0, 4, -1, -1, 0, 0                   # IRECV: the text
        .dword 21, 65535, 2, -1, -1, 0, 0               # IRECV
        .dword 21, -1, 2, -1, -1, 0, 0                  # IRECV
        .dword 21, seen, 8, -2, -5, 0, 0                # IRECV: the null process and a tag
        .dword 21, seen, 4097, -2, 7, 0, 0              # IRECV: the null process and a count
        .dword 21, 0, 4, -2, 7, 0, 0                    # IRECV: the null process and a buffer
        .dword 21, seen, 8, -2, 7, 9, 0                 # IRECV: the null process and a communicator
        .dword 21, seen, 8, -2, 7, 0, 0                 # IRECV: the null process
        .dword 21, -1, 0, 1, 7, 0, 0                    # IRECV: no bytes
        .dword 21, seen, 8, -1, -1, 0, 0                # IRECV
        .dword 23, 1, status, 0, 0, 0, 0                # WAIT
        .dword 100, status, 3, 0, 0, 0, 0
        .dword 23, 3, status, 0, 0, 0, 0                # WAIT
        .dword 100, status, 3, 0, 0, 0, 0
        .dword 23, 2, status, 0, 0, 0, 0                # WAIT
        .dword 100, status, 3, 0, 0, 0, 0
        .dword 101, seen, 8, 0, 0, 0, 0
        .dword -1
rank1:  .dword 16, text, 3, 0, 8, 0, 0                  # SEND
        .dword 16, text, 4, 0, 7, 0, 0                  # SEND
        .dword -1
line:   .zero 512
