# IMRECV and MRECV: each code, and of two faults the one that is looked at first.
# run: one --source; status 0
# behind: repeated_calls.guest
        .ranks 2
        .data
tables: .dword rank0, rank1
text:   .ascii "0123456789abcdef"
status: .dword 5, 5, 5
seen:   .ascii "????????????????"
more:   .ascii "????????????????"
rank0:  .dword 29, seen, 4097, 5, 0, 0, 0               # MRECV: count and message
        .dword 29, 0, 4097, 5, 0, 0, 0                  # MRECV: count and buffer
        .dword 29, 0, 4, 5, 0, 0, 0                     # MRECV: the text
        .dword 29, seen, 4, 5, 65530, 0, 0              # MRECV: the status
        .dword 29, seen, 4, 0, 0, 0, 0                  # MRECV: no message
        .dword 29, seen, 4, -1, 0, 0, 0                 # MRECV
        .dword 29, seen, 4, 1, 0, 0, 0                  # MRECV
        .dword 29, seen, 4097, -2, 0, 0, 0              # MRECV
        .dword 29, 0, 4, -2, 0, 0, 0                    # MRECV
        .dword 29, seen, 4, -2, 4, 0, 0                 # MRECV
        .dword 29, seen, 4, -2, status, 0, 0            # MRECV: no process
        .dword 100, status, 3, 0, 0, 0, 0
        .dword 29, seen, 4, -2, 0, 0, 0                 # MRECV: and again
        .dword 28, seen, 4097, 5, 0, 0, 0               # IMRECV
        .dword 28, 0, 4097, 5, 0, 0, 0                  # IMRECV
        .dword 28, 0, 4, 5, 0, 0, 0                     # IMRECV
        .dword 28, seen, 4, 0, 0, 0, 0                  # IMRECV: no message
        .dword 28, seen, 4, -1, 0, 0, 0                 # IMRECV
        .dword 28, seen, 4, 1, 0, 0, 0                  # IMRECV
        .dword 28, 65535, 2, -2, 0, 0, 0                # IMRECV
        .dword 28, seen, 4, -2, 0, 0, 0                 # IMRECV: no process
        .dword 22, 1, status, 0, 0, 0, 0                # TEST
        .dword 100, status, 3, 0, 0, 0, 0
        .dword 104, 255, 0, 0, 0, 0, 0
        .dword 28, seen, 4, -2, 0, 0, 0                 # IMRECV
        .dword 28, seen, 4, 0, 0, 0, 0                  # IMRECV: 255 handles are open
        .dword 28, seen, 4097, 0, 0, 0, 0               # IMRECV
        .dword 28, seen, 4, -2, 0, 0, 0                 # IMRECV
        .dword 29, seen, 4, 0, 0, 0, 0                  # MRECV
        .dword -1
rank1:  .dword -1
line:   .zero 512
