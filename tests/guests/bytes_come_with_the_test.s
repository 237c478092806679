# The bytes of an IRECV are written when it is completed, into the buffer of its call; a status over the buffer stays.
# run: one --source; status 0
# behind: calls.guest
        .ranks 2
        .comm 0, 1
        .data
tables: .dword rank0, rank1
text:   .ascii "0123456789abcdef"
status: .dword 5, 5, 5
seen:   .ascii "????????????????"
more:   .ascii "????????????????"
rank0:  .dword 16, text, 16, 1, 7, 0, 0                 # SEND
        .dword 16, text, 16, 1, 7, 0, 0                 # SEND
        .dword 102, 1, 0, 0, 0, 0, 0
        .dword -1
rank1:  .dword 21, seen, 16, 0, 7, 0, 0                 # IRECV
        .dword 21, more, 16, -1, -1, 0, 0               # IRECV
        .dword 103, 0, 0, 0, 0, 0, 0
        .dword 101, seen, 16, 0, 0, 0, 0
        .dword 101, more, 16, 0, 0, 0, 0
        .dword 23, 2, 0, 0, 0, 0, 0                     # WAIT
        .dword 101, seen, 16, 0, 0, 0, 0
        .dword 101, more, 16, 0, 0, 0, 0
        .dword 22, 1, seen, 0, 0, 0, 0                  # TEST
        .dword 100, seen, 4, 0, 0, 0, 0
        .dword -1
line:   .zero 512
