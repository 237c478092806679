# START of an active request; TEST of the null and of an inactive request; TESTALL of one that is complete and one
# that is pending.
# run: one --source; status 0
# behind: calls.guest
        .ranks 2
        .comm 0, 1
        .data
tables: .dword rank0, rank1
text:   .ascii "0123456789abcdef"
next:   .ascii "ABCDEFGHIJKLMNOP"
last:   .ascii "QRSTUVWXYZ!@$%&*"
status: .dword 5, 5, 5
seen:   .ascii "????????????????"
more:   .ascii "????????????????"
sts:    .dword 5, 5, 5, 5, 5, 5, 5, 5, 5, 5, 5, 5
both:   .dword 1, 2
rank0:  .dword 103, 1, 0, 0, 0, 0, 0
        .dword 16, text, 3, 1, 5, 0, 0                  # SEND
        .dword 102, 1, 0, 0, 0, 0, 0
        .dword 103, 1, 0, 0, 0, 0, 0
        .dword 16, text, 2, 1, 6, 0, 0                  # SEND
        .dword 102, 1, 0, 0, 0, 0, 0
        .dword -1
rank1:  .dword 31, seen, 8, 0, 5, 0, 0                  # RECV_INIT
        .dword 22, 1, status, 0, 0, 0, 0                # TEST
        .dword 100, status, 3, 0, 0, 0, 0
        .dword 22, 0, status, 0, 0, 0, 0                # TEST
        .dword 100, status, 3, 0, 0, 0, 0
        .dword 32, 1, 0, 0, 0, 0, 0                     # START
        .dword 32, 1, 0, 0, 0, 0, 0                     # START
        .dword 21, more, 8, 0, 6, 0, 0                  # IRECV
        .dword 102, 0, 0, 0, 0, 0, 0
        .dword 103, 0, 0, 0, 0, 0, 0
        .dword 34, both, 2, sts, 0, 0, 0                # TESTALL: one of two
        .dword 100, sts, 6, 0, 0, 0, 0                  # as they were
        .dword 101, seen, 8, 0, 0, 0, 0                 # as it was
        .dword 32, 1, 0, 0, 0, 0, 0                     # START: active still
        .dword 102, 0, 0, 0, 0, 0, 0
        .dword 103, 0, 0, 0, 0, 0, 0
        .dword 34, both, 2, sts, 0, 0, 0                # TESTALL
        .dword 100, sts, 6, 0, 0, 0, 0
        .dword 101, seen, 8, 0, 0, 0, 0
        .dword 101, more, 8, 0, 0, 0, 0
        .dword 100, both, 2, 0, 0, 0, 0                 # as they were
        .dword 34, both, 2, sts, 0, 0, 0                # TESTALL: 2 was an ordinary one
        .dword 32, 1, 0, 0, 0, 0, 0                     # START: inactive again
        .dword -1
line:   .zero 512
