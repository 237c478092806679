# A message of 10 bytes into a buffer of 4, a message of no bytes, and limits.
# run: one --source; status 0
# behind: calls.guest
        .ranks 2
        .data
tables: .dword rank0, rank1
text:   .ascii "0123456789"
        .balign 8
status: .zero 24
seen:   .ascii "????????"
rank0:  .dword 16, text, 10, 1, 7, 0, 0                 # SEND
        .dword 16, text, 0, 1, 7, 0, 0                  # SEND
        .dword 16, text, 10, 1, 8, 0, 0                 # SEND: for a buffer of no bytes
        .dword 16, text, 4, 1, 9, 0, 0                  # SEND: as long as the buffer
        .dword 16, text, 5, 1, 9, 0, 0                  # SEND: one byte more
        .dword 16, text, 4097, 1, 7, 0, 0               # SEND
        .dword 16, text, 1, 1, 32768, 0, 0              # SEND
        .dword 5, 0, 0, 0, 0, 0, 0
        .dword -1
rank1:  .dword 18, seen, 4, 0, 7, 0, status             # RECV: truncated
        .dword 100, status, 3, 0, 0, 0, 0
        .dword 101, seen, 8, 0, 0, 0, 0                 # the rest is as it was
        .dword 18, seen, 4, 0, 7, 0, status             # RECV: empty
        .dword 100, status, 3, 0, 0, 0, 0
        .dword 101, seen, 8, 0, 0, 0, 0
        .dword 18, -1, 0, 0, 8, 0, status               # RECV: nothing fits
        .dword 100, status, 3, 0, 0, 0, 0
        .dword 18, seen, 4, 0, 9, 0, status             # RECV
        .dword 100, status, 3, 0, 0, 0, 0
        .dword 18, seen, 4, 0, 9, 0, status             # RECV
        .dword 100, status, 3, 0, 0, 0, 0
        .dword 18, seen, 4, -2, 7, 0, status            # RECV
        .dword 100, status, 3, 0, 0, 0, 0
        .dword -1
line:   .zero 512
