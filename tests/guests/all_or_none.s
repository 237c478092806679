# TESTALL over two receives completes both or none, in the array's order.
# run: one --source; status 0
# behind: calls.guest
        .ranks 2
        .comm 0, 1
        .data
tables: .dword rank0, rank1
text:   .ascii "0123456789abcdef"
next:   .ascii "ABCDEFGHIJKLMNOP"
last:   .ascii "QRSTUVWXYZ!@$%&*"
status: .dword 5, 5, 5
seen:   .ascii "????????????????"
more:   .ascii "????????????????"
sts:    .dword 5, 5, 5, 5, 5, 5, 5, 5, 5, 5, 5, 5
both:   .dword 1, 2
y:      .ascii "yyyyyyyy"
z:      .ascii "zzzzzzzz"
rank0:  .dword 103, 1, 0, 0, 0, 0, 0
        .dword 16, z, 1, 1, 2, 0, 0                     # SEND
        .dword 102, 1, 0, 0, 0, 0, 0
        .dword 103, 1, 0, 0, 0, 0, 0
        .dword 16, y, 1, 1, 1, 0, 0                     # SEND
        .dword 102, 1, 0, 0, 0, 0, 0
        .dword -1
rank1:  .dword 21, seen, 8, -1, 1, 0, 0                 # IRECV
        .dword 21, more, 8, -1, 2, 0, 0                 # IRECV
        .dword 102, 0, 0, 0, 0, 0, 0
        .dword 103, 0, 0, 0, 0, 0, 0
        .dword 34, both, 2, sts, 0, 0, 0                # TESTALL
        .dword 101, more, 1, 0, 0, 0, 0
        .dword 102, 0, 0, 0, 0, 0, 0
        .dword 103, 0, 0, 0, 0, 0, 0
        .dword 34, both, 2, sts, 0, 0, 0                # TESTALL
        .dword 100, sts, 6, 0, 0, 0, 0
        .dword 101, seen, 1, 0, 0, 0, 0
        .dword 101, more, 1, 0, 0, 0, 0
        .dword 22, 1, 0, 0, 0, 0, 0                     # TEST
        .dword 34, both, 0, 0, 0, 0, 0                  # TESTALL
        .dword -1
line:   .zero 512
