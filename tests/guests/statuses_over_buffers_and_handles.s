# The bytes of all are written first, in the array's order, and then the statuses: over buffers, over each other's
# bytes, over the array.
# run: one --source; status 0
# behind: calls.guest
        .ranks 2
        .comm 0, 1
        .data
tables: .dword rank0, rank1
text:   .ascii "0123456789abcdef"
next:   .ascii "ABCDEFGHIJKLMNOP"
last:   .ascii "QRSTUVWXYZ!@$%&*"
status: .dword 5, 5, 5
seen:   .ascii "????????????????"
more:   .ascii "????????????????"
sts:    .dword 5, 5, 5, 5, 5, 5, 5, 5, 5, 5, 5, 5
both:   .dword 1, 2
back:   .dword 2, 1
gone:   .dword 1, 2, 5, 5, 5, 5, 9
rank0:  .dword 16, text, 16, 1, 1, 0, 0                 # SEND
        .dword 16, next, 16, 1, 2, 0, 0                 # SEND
        .dword 16, text, 16, 1, 1, 0, 0                 # SEND
        .dword 16, next, 16, 1, 2, 0, 0                 # SEND
        .dword 16, text, 16, 1, 1, 0, 0                 # SEND
        .dword 16, next, 16, 1, 2, 0, 0                 # SEND
        .dword 16, text, 16, 1, 1, 0, 0                 # SEND
        .dword 16, next, 8, 1, 2, 0, 0                  # SEND
        .dword 102, 1, 0, 0, 0, 0, 0
        .dword -1
rank1:  .dword 103, 0, 0, 0, 0, 0, 0
        .dword 21, seen, 16, 0, 1, 0, 0                 # IRECV
        .dword 21, more, 16, 0, 2, 0, 0                 # IRECV
        .dword 34, both, 2, seen, 0, 0, 0               # TESTALL: the statuses over both buffers
        .dword 100, seen, 7, 0, 0, 0, 0
        .dword 21, seen, 16, 0, 1, 0, 0                 # IRECV
        .dword 21, more, 16, 0, 2, 0, 0                 # IRECV
        .dword 34, both, 2, more, 0, 0, 0  # TESTALL: the statuses over the second buffer and what is behind
        .dword 101, seen, 16, 0, 0, 0, 0
        .dword 100, more, 6, 0, 0, 0, 0
        .dword 21, seen, 16, 0, 1, 0, 0                 # IRECV
        .dword 21, more, 16, 0, 2, 0, 0                 # IRECV
        .dword 34, gone, 2, gone, 0, 0, 0               # TESTALL: the statuses over the array
        .dword 100, gone, 7, 0, 0, 0, 0
        .dword 101, more, 16, 0, 0, 0, 0
        .dword 21, seen, 16, 0, 1, 0, 0                 # IRECV
        .dword 21, seen, 16, 0, 2, 0, 0                 # IRECV: into the same buffer
        .dword 35, back, 2, sts, 0, 0, 0                # WAITALL: 2 before 1: the first one's bytes are written last
        .dword 101, seen, 16, 0, 0, 0, 0
        .dword 100, sts, 6, 0, 0, 0, 0
        .dword -1
line:   .zero 512
