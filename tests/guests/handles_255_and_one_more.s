# 255 handles are open; the next call that wants one is FULL, whatever it is. Then the lowest free one is given.
# run: one --source; status 0
# behind: repeated_calls.guest
        .data
tables: .dword rank0
text:   .ascii "0123456789abcdef"
status: .dword 5, 5, 5
seen:   .ascii "????????????????"
more:   .ascii "????????????????"
rank0:  .dword 104, 255, 0, 0, 0, 0, 0
        .dword 21, seen, 8, 0, 5, 0, 0                  # IRECV: from itself
        .dword 21, seen, 8, 0, 5, 0, 0                  # IRECV
        .dword 19, text, 1, 0, 5, 0, 0                  # ISEND
        .dword 20, text, 1, 0, 5, 0, 0                  # ISSEND
        .dword 19, text, 1, -2, 5, 0, 0                 # ISEND: the null process
        .dword 21, seen, 8, -2, 5, 0, 0                 # IRECV: the null process
        .dword 21, seen, 4097, 0, 5, 0, 0               # IRECV: other faults are looked at before
        .dword 104, 7, 0, 0, 0, 0, 0
        .dword 16, text, 1, 0, 5, 0, 0                  # SEND
        .dword 22, 8, 0, 0, 0, 0, 0                     # TEST: seven messages for the first seven receives
        .dword 22, 7, status, 0, 0, 0, 0                # TEST
        .dword 100, status, 3, 0, 0, 0, 0
        .dword 21, seen, 8, 0, 6, 0, 0                  # IRECV: the lowest free one
        .dword 21, seen, 8, 0, 6, 0, 0                  # IRECV
        .dword 22, 3, 0, 0, 0, 0, 0                     # TEST
        .dword 22, 2, 0, 0, 0, 0, 0                     # TEST
        .dword 19, text, 1, 0, 9, 0, 0                  # ISEND
        .dword 19, text, 1, 0, 9, 0, 0                  # ISEND
        .dword 19, text, 1, 0, 9, 0, 0                  # ISEND
        .dword 23, 3, 0, 0, 0, 0, 0                     # WAIT
        .dword 23, 2, 0, 0, 0, 0, 0                     # WAIT
        .dword 22, 255, 0, 0, 0, 0, 0                   # TEST
        .dword -1
line:   .zero 512
