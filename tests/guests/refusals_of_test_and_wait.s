# TEST and WAIT: each code, and of two faults the one that is looked at first.
# run: one --source; status 0
# behind: calls.guest
        .ranks 2
        .comm 0, 1
        .data
tables: .dword rank0, rank1
text:   .ascii "0123456789abcdef"
status: .dword 5, 5, 5
seen:   .ascii "????????????????"
more:   .ascii "????????????????"
rank0:  .dword 22, 1, 0, 0, 0, 0, 0                     # TEST: nothing is open
        .dword 22, 256, 0, 0, 0, 0, 0                   # TEST
        .dword 22, -1, 0, 0, 0, 0, 0                    # TEST
        .dword 22, 1, 65530, 0, 0, 0, 0                 # TEST: handle and status
        .dword 23, 1, 0, 0, 0, 0, 0                     # WAIT
        .dword 23, 256, 0, 0, 0, 0, 0                   # WAIT
        .dword 23, -1, 0, 0, 0, 0, 0                    # WAIT
        .dword 23, 1, 65530, 0, 0, 0, 0                 # WAIT: handle and status
        .dword 22, 0, status, 0, 0, 0, 0                # TEST: the null request
        .dword 100, status, 3, 0, 0, 0, 0
        .dword 22, 0, 0, 0, 0, 0, 0                     # TEST
        .dword 22, 0, 65530, 0, 0, 0, 0                 # TEST: the status is looked at all the same
        .dword 22, 0, 4, 0, 0, 0, 0                     # TEST: the text
        .dword 23, 0, more, 0, 0, 0, 0                  # WAIT
        .dword 100, more, 3, 0, 0, 0, 0
        .dword 23, 0, 65513, 0, 0, 0, 0                 # WAIT: one byte too far
        .dword 23, 0, -1, 0, 0, 0, 0                    # WAIT
        .dword 21, seen, 4, 1, 7, 0, 0                  # IRECV
        .dword 22, 1, 65530, 0, 0, 0, 0                 # TEST: also where it is not complete
        .dword 22, 1, 0, 0, 0, 0, 0                     # TEST: not complete
        .dword 102, 1, 0, 0, 0, 0, 0
        .dword 103, 1, 0, 0, 0, 0, 0
        .dword 22, 1, 4, 0, 0, 0, 0                     # TEST: the text: the message stays
        .dword 22, 1, status, 0, 0, 0, 0                # TEST: truncated
        .dword 100, status, 3, 0, 0, 0, 0
        .dword 101, seen, 8, 0, 0, 0, 0
        .dword 21, seen, 4, 1, 7, 0, 0                  # IRECV
        .dword 23, 1, status, 0, 0, 0, 0                # WAIT: truncated
        .dword 100, status, 3, 0, 0, 0, 0
        .dword 21, seen, 4, -1, -1, 0, 0                # IRECV
        .dword 23, 1, status, 0, 0, 0, 0                # WAIT: no bytes
        .dword 100, status, 3, 0, 0, 0, 0
        .dword 22, 1, 0, 0, 0, 0, 0                     # TEST: it is completed
        .dword -1
rank1:  .dword 103, 0, 0, 0, 0, 0, 0
        .dword 16, text, 10, 0, 7, 0, 0                 # SEND
        .dword 102, 0, 0, 0, 0, 0, 0
        .dword 16, text, 5, 0, 7, 0, 0                  # SEND
        .dword 16, text, 0, 0, 9, 0, 0                  # SEND
        .dword 22, 1, 0, 0, 0, 0, 0                     # TEST: the handle of the other rank
        .dword -1
line:   .zero 512
