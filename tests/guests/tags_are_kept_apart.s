# Two messages: a receive of the second one's tag takes it, one of any tag then the first.
# run: one --source; status 0
# behind: calls.guest
        .ranks 2
        .comm 0, 1
        .data
tables: .dword rank0, rank1
text:   .ascii "a"
more:   .ascii "b"
        .balign 8
status: .zero 24
seen:   .zero 8
rank0:  .dword 16, text, 1, 1, 7, 0, 0                  # SEND: a
        .dword 16, more, 1, 1, 9, 0, 0                  # SEND: b
        .dword 102, 1, 0, 0, 0, 0, 0
        .dword -1
rank1:  .dword 103, 0, 0, 0, 0, 0, 0
        .dword 18, seen, 8, 0, 9, 0, status             # RECV
        .dword 100, status, 3, 0, 0, 0, 0
        .dword 101, seen, 1, 0, 0, 0, 0
        .dword 18, seen, 8, 0, -1, 0, status            # RECV
        .dword 100, status, 3, 0, 0, 0, 0
        .dword 101, seen, 1, 0, 0, 0, 0
        .dword -1
line:   .zero 512
