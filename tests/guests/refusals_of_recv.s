# RECV: each code, and of two faults the one that is looked at first.
# run: one --source; status 0
# behind: calls.guest
        .ranks 2
        .data
tables: .dword rank0, rank1
text:   .ascii "0123456789"
        .balign 8
status: .zero 24
seen:   .zero 16
rank0:  .dword 18, seen, 8, 1, 7, 2, 0                  # RECV: no such communicator
        .dword 18, seen, 8, 1, 7, -1, 0                 # RECV
        .dword 18, seen, 5000, 9, -5, 8, 1              # RECV: everything
        .dword 18, seen, 8, 2, 7, 0, 0                  # RECV: no such rank
        .dword 18, seen, 8, -3, 7, 0, 0                 # RECV
        .dword 18, seen, 8, -3, -2, 0, 0                # RECV: rank and tag
        .dword 18, seen, 8, -1, -2, 0, 0                # RECV
        .dword 18, seen, 8, -1, 32768, 0, 0             # RECV
        .dword 18, seen, 4097, -1, 32768, 0, 0          # RECV: tag and count
        .dword 18, seen, 4097, -1, -1, 0, 0             # RECV
        .dword 18, 0, 4097, -1, -1, 0, 0                # RECV: count and buffer
        .dword 18, 0, 4, -1, -1, 0, 0                   # RECV: the text
        .dword 18, 65535, 2, -1, -1, 0, 0               # RECV
        .dword 18, -1, 2, -1, -1, 0, 0                  # RECV
        .dword 18, seen, 8, -1, -1, 0, 65530            # RECV: the status leaves the memory
        .dword 18, seen, 8, -1, -1, 0, 8                # RECV: the status is in the text
        .dword 18, seen, 8, -1, -1, 0, -1               # RECV
        .dword 18, seen, 8, -2, -5, 0, 0                # RECV: the null process and a tag
        .dword 18, seen, 4097, -2, 7, 0, 0              # RECV: the null process and a count
        .dword 18, 0, 4, -2, 7, 0, 0                    # RECV: the null process and a buffer
        .dword 18, seen, 8, -2, 7, 0, 65530             # RECV: the null process and a status
        .dword 18, seen, 8, -2, 7, 9, 0                 # RECV: the null process and a communicator
        .dword 18, seen, 8, -2, 7, 0, status            # RECV: the null process
        .dword 100, status, 3, 0, 0, 0, 0
        .dword 18, -1, 0, 1, 7, 0, status               # RECV: no bytes, at the last address
        .dword 100, status, 3, 0, 0, 0, 0
        .dword 18, seen, 8, 1, -1, 0, status            # RECV: any tag
        .dword 100, status, 3, 0, 0, 0, 0
        .dword 18, seen, 8, -1, 9, 0, status            # RECV: any source
        .dword 100, status, 3, 0, 0, 0, 0
        .dword 18, seen, 8, -1, -1, 0, 65512            # RECV: a status at the end of memory
        .dword 100, 65512, 3, 0, 0, 0, 0
        .dword -1
rank1:  .dword 16, -1, 0, 0, 7, 0, 0                    # SEND
        .dword 16, text, 2, 0, 8, 0, 0                  # SEND
        .dword 16, text, 3, 0, 9, 0, 0                  # SEND
        .dword 16, text, 4, 0, 10, 0, 0                 # SEND
        .dword -1
line:   .zero 512
