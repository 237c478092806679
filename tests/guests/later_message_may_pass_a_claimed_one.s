# Of two messages with one tag the first is claimed: a receive gets the second, and MRECV the first.
# run: one --source; status 0
# behind: calls.guest
        .ranks 2
        .comm 0, 1
        .data
tables: .dword rank0, rank1
text:   .ascii "0123456789abcdef"
status: .dword 5, 5, 5
seen:   .ascii "????????????????"
more:   .ascii "????????????????"
rank0:  .dword 16, text, 1, 1, 7, 0, 0                  # SEND
        .dword 16, text, 2, 1, 7, 0, 0                  # SEND
        .dword 102, 1, 0, 0, 0, 0, 0
        .dword -1
rank1:  .dword 103, 0, 0, 0, 0, 0, 0
        .dword 26, 0, 7, 0, status, 0, 0                # IMPROBE
        .dword 100, status, 3, 0, 0, 0, 0
        .dword 18, seen, 8, 0, 7, 0, status             # RECV
        .dword 100, status, 3, 0, 0, 0, 0
        .dword 29, seen, 8, 5, status, 0, 0             # MRECV
        .dword 100, status, 3, 0, 0, 0, 0
        .dword -1
line:   .zero 512
