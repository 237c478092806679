# Communicator 1 is ranks 3, 1, 0: ranks and sources are positions there, and communicators keep messages apart.
# run: one --source; status 0
# behind: calls.guest
        .ranks 4
        .comm 3, 1, 0
        .comm 2
        .data
tables: .dword rank0, rank1, rank2, rank3
text:   .ascii "0123456789"
        .balign 8
status: .zero 24
seen:   .zero 16
rank0:  .dword 2, 1, 0, 0, 0, 0, 0                      # RANK: the third member
        .dword 2, 2, 0, 0, 0, 0, 0                      # RANK: no member
        .dword 3, 2, 0, 0, 0, 0, 0                      # SIZE: no member
        .dword 3, 1, 0, 0, 0, 0, 0                      # SIZE
        .dword 16, text, 1, 0, 7, 1, 0                  # SEND: to rank 3
        .dword 16, text, 2, 3, 7, 0, 0                  # SEND: to rank 3 too
        .dword 16, text, 1, 3, 7, 1, 0                  # SEND: there is no fourth member
        .dword 16, text, 1, 0, 7, 2, 0                  # SEND: no member
        .dword -1
rank1:  .dword 2, 1, 0, 0, 0, 0, 0                      # RANK
        .dword 16, text, 3, 0, 8, 1, 0                  # SEND: to rank 3
        .dword -1
rank2:  .dword 2, 1, 0, 0, 0, 0, 0                      # RANK: no member
        .dword 2, 2, 0, 0, 0, 0, 0                      # RANK: the only member
        .dword 3, 2, 0, 0, 0, 0, 0                      # SIZE
        .dword 16, text, 4, 0, 9, 2, 0                  # SEND: to itself
        .dword 18, seen, 8, -1, -1, 2, status           # RECV
        .dword 100, status, 3, 0, 0, 0, 0
        .dword 18, seen, 8, 0, 7, 1, 0                  # RECV: no member
        .dword -1
rank3:  .dword 2, 1, 0, 0, 0, 0, 0                      # RANK: the first member
        .dword 18, seen, 8, -1, 7, 1, status            # RECV: from rank 0, at place 2
        .dword 100, status, 3, 0, 0, 0, 0
        .dword 18, seen, 8, 1, -1, 1, status            # RECV: from rank 1, at place 1
        .dword 100, status, 3, 0, 0, 0, 0
        .dword 18, seen, 8, -1, -1, 0, status           # RECV: from rank 0, in communicator 0
        .dword 100, status, 3, 0, 0, 0, 0
        .dword -1
line:   .zero 512
