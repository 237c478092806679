# Receive 1 takes any message, receive 2 only tag 7: the first message of tag 7 is receive 1's, the second receive 2's.
# run: one --source; status 0
# behind: calls.guest
        .ranks 2
        .comm 0, 1
        .data
tables: .dword rank0, rank1
text:   .ascii "0123456789abcdef"
status: .dword 5, 5, 5
seen:   .ascii "????????????????"
more:   .ascii "????????????????"
rank0:  .dword 103, 1, 0, 0, 0, 0, 0
        .dword 16, text, 1, 1, 7, 0, 0                  # SEND
        .dword 102, 1, 0, 0, 0, 0, 0
        .dword 103, 1, 0, 0, 0, 0, 0
        .dword 16, text, 2, 1, 7, 0, 0                  # SEND
        .dword 102, 1, 0, 0, 0, 0, 0
        .dword -1
rank1:  .dword 21, seen, 8, -1, -1, 0, 0                # IRECV
        .dword 21, more, 8, 0, 7, 0, 0                  # IRECV
        .dword 102, 0, 0, 0, 0, 0, 0
        .dword 103, 0, 0, 0, 0, 0, 0
        .dword 22, 2, status, 0, 0, 0, 0                # TEST: the message is receive 1's
        .dword 100, status, 3, 0, 0, 0, 0               # as they were
        .dword 102, 0, 0, 0, 0, 0, 0
        .dword 103, 0, 0, 0, 0, 0, 0
        .dword 22, 2, status, 0, 0, 0, 0                # TEST
        .dword 100, status, 3, 0, 0, 0, 0
        .dword 101, more, 8, 0, 0, 0, 0
        .dword 101, seen, 8, 0, 0, 0, 0                 # not before its own TEST
        .dword 22, 1, status, 0, 0, 0, 0                # TEST
        .dword 100, status, 3, 0, 0, 0, 0
        .dword 101, seen, 8, 0, 0, 0, 0
        .dword -1
line:   .zero 512
