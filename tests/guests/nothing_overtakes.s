# Four messages of one sender: receives of any tag and of one tag take them in the order of sending.
# run: one --source; status 0
# behind: calls.guest
        .ranks 2
        .data
tables: .dword rank0, rank1
text:   .ascii "a"
b_:     .ascii "b"
c_:     .ascii "c"
d_:     .ascii "d"
        .balign 8
seen:   .zero 8
rank0:  .dword 16, text, 1, 1, 3, 0, 0                  # SEND: a
        .dword 16, b_, 1, 1, 4, 0, 0                # SEND: b
        .dword 16, c_, 1, 1, 3, 0, 0                # SEND: c
        .dword 16, d_, 1, 1, 4, 0, 0                # SEND: d
        .dword -1
rank1:  .dword 18, seen, 8, -1, 4, 0, 0                 # RECV
        .dword 101, seen, 1, 0, 0, 0, 0                 # b
        .dword 18, seen, 8, 0, -1, 0, 0                 # RECV
        .dword 101, seen, 1, 0, 0, 0, 0                 # a
        .dword 18, seen, 8, -1, -1, 0, 0                # RECV
        .dword 101, seen, 1, 0, 0, 0, 0                 # c
        .dword 18, seen, 8, 0, 4, 0, 0                  # RECV
        .dword 101, seen, 1, 0, 0, 0, 0                 # d
        .dword -1
line:   .zero 512
