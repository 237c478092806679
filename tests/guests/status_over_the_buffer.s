# A status that lies over the received bytes: the bytes are written first, the status after them.
# run: one --source; status 0
# behind: calls.guest
        .ranks 2
        .data
tables: .dword rank0, rank1
text:   .ascii "0123456789"
        .balign 8
seen:   .dword -1, -1, -1, -1
rank0:  .dword 16, text, 10, 1, 7, 0, 0                 # SEND
        .dword -1
rank1:  .dword 18, seen, 32, 0, 7, 0, seen              # RECV
        .dword 100, seen, 4, 0, 0, 0, 0
        .dword -1
line:   .zero 512
