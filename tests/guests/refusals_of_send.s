# SEND: each code, and of two faults the one that is looked at first.
# run: one --source; status 0
# behind: calls.guest
        .ranks 2
        .comm 1, 0
        .data
tables: .dword rank0, rank1
text:   .ascii "0123456789"
        .balign 8
status: .zero 24
seen:   .zero 16
rank0:  .dword 16, text, 1, 1, 7, 2, 0                  # SEND: no such communicator
        .dword 16, text, 1, 1, 7, 8, 0                  # SEND
        .dword 16, text, 1, 1, 7, -1, 0                 # SEND
        .dword 16, text, 5000, 9, -5, 8, 0              # SEND: communicator, rank, tag and count
        .dword 16, text, 1, 2, 7, 0, 0                  # SEND: no such rank
        .dword 16, text, 1, -1, 7, 0, 0                 # SEND: no wildcard
        .dword 16, text, 1, -3, 7, 0, 0                 # SEND
        .dword 16, text, 1, 256, 7, 0, 0                # SEND
        .dword 16, text, 1, 2, -1, 0, 0                 # SEND: rank and tag
        .dword 16, text, 1, 1, -1, 0, 0                 # SEND: no wildcard
        .dword 16, text, 1, 1, 32768, 0, 0              # SEND
        .dword 16, text, 4097, 1, 32768, 0, 0           # SEND: tag and count
        .dword 16, text, 4097, 1, 7, 0, 0               # SEND
        .dword 16, text, -1, 1, 7, 0, 0                 # SEND
        .dword 16, 65536, 4097, 1, 7, 0, 0              # SEND: count and buffer
        .dword 16, 65535, 2, 1, 7, 0, 0                 # SEND
        .dword 16, -1, 1, 1, 7, 0, 0                    # SEND
        .dword 16, -8, 16, 1, 7, 0, 0                   # SEND
        .dword 16, text, 1, -2, 7, 0, 0                 # SEND: the null process
        .dword 16, text, 1, -2, -1, 0, 0                # SEND: the null process and a tag
        .dword 16, text, 4097, -2, 7, 0, 0              # SEND: the null process and a count
        .dword 16, 65536, 1, -2, 7, 0, 0                # SEND: the null process and a buffer
        .dword 16, text, 1, -2, 7, 2, 0                 # SEND: the null process and a communicator
        .dword 16, -1, 0, 1, 7, 0, 0                    # SEND: no bytes, at the last address
        .dword 16, 0, 4, 0, 7, 1, 0  # SEND: the text may be sent; to the first member of communicator 1
        .dword 16, text, 1, 1, 32767, 0, 0              # SEND: the greatest tag
        .dword 16, 61440, 4096, 1, 7, 0, 0              # SEND: the greatest message
        .dword 16, text, 3, 0, 7, 0, 0                  # SEND: to itself
        .dword 18, seen, 16, 0, 7, 0, status            # RECV
        .dword 100, status, 3, 0, 0, 0, 0
        .dword -1
rank1:  .dword 18, seen, 16, 0, 7, 0, status            # RECV
        .dword 100, status, 3, 0, 0, 0, 0
        .dword 18, seen, 16, 1, 7, 1, status            # RECV: from the second member
        .dword 100, status, 3, 0, 0, 0, 0
        .dword 18, seen, 16, 0, 32767, 0, status        # RECV
        .dword 100, status, 3, 0, 0, 0, 0
        .dword 18, 57344, 4096, 0, 7, 0, status         # RECV
        .dword 100, status, 3, 0, 0, 0, 0
        .dword -1
line:   .zero 512
