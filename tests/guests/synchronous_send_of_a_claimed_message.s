# A synchronous send is complete once its claimed message is received, and not when it is claimed.
# run: one --source; status 0
# behind: calls.guest
        .ranks 2
        .comm 0, 1
        .data
tables: .dword rank0, rank1
text:   .ascii "0123456789abcdef"
status: .dword 5, 5, 5
seen:   .ascii "????????????????"
more:   .ascii "????????????????"
rank0:  .dword 20, text, 3, 1, 7, 0, 0                  # ISSEND
        .dword 102, 1, 0, 0, 0, 0, 0
        .dword 103, 1, 0, 0, 0, 0, 0
        .dword 22, 1, status, 0, 0, 0, 0                # TEST: claimed, not received
        .dword 100, status, 3, 0, 0, 0, 0               # as they were
        .dword 102, 1, 0, 0, 0, 0, 0
        .dword 103, 1, 0, 0, 0, 0, 0
        .dword 22, 1, status, 0, 0, 0, 0                # TEST
        .dword 100, status, 3, 0, 0, 0, 0
        .dword 22, 1, 0, 0, 0, 0, 0                     # TEST
        .dword -1
rank1:  .dword 103, 0, 0, 0, 0, 0, 0
        .dword 27, -1, -1, 0, status, 0, 0              # MPROBE
        .dword 100, status, 3, 0, 0, 0, 0
        .dword 102, 0, 0, 0, 0, 0, 0
        .dword 103, 0, 0, 0, 0, 0, 0
        .dword 29, seen, 8, 4, status, 0, 0             # MRECV
        .dword 100, status, 3, 0, 0, 0, 0
        .dword 101, seen, 8, 0, 0, 0, 0
        .dword 102, 0, 0, 0, 0, 0, 0
        .dword -1
line:   .zero 512
