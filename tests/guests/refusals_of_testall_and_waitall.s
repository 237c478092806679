# TESTALL and WAITALL: each code, and of two faults the one that is looked at first.
# run: one --source; status 0
# behind: calls.guest
        .ranks 2
        .data
tables: .dword rank0, rank1
text:   .ascii "0123456789abcdef"
next:   .ascii "ABCDEFGHIJKLMNOP"
last:   .ascii "QRSTUVWXYZ!@$%&*"
status: .dword 5, 5, 5
seen:   .ascii "????????????????"
more:   .ascii "????????????????"
sts:    .dword 5, 5, 5, 5, 5, 5, 5, 5, 5, 5, 5, 5
a0:     .dword 0, 0, 0
a1:     .dword 1, 1
a2:     .dword 2, 2
a256:   .dword 256
rank0:  .dword 34, a1, 256, 0, 0, 0, 0                  # TESTALL: too many
        .dword 34, 65536, 256, 0, 0, 0, 0               # TESTALL: count and array
        .dword 34, -1, -1, 0, 0, 0, 0                   # TESTALL
        .dword 34, 65528, 2, 0, 0, 0, 0                 # TESTALL: the array leaves the memory
        .dword 34, 65528, 2, 65536, 0, 0, 0             # TESTALL: array and statuses
        .dword 34, a1, 1, 0, 0, 0, 0                    # TESTALL: nothing is open
        .dword 34, a1, 1, 65536, 0, 0, 0                # TESTALL: handle and statuses
        .dword 34, a256, 1, 0, 0, 0, 0                  # TESTALL
        .dword 34, 0, 1, 0, 0, 0, 0                     # TESTALL: an array in the text, whose words are no handles
        .dword 34, a0, 1, 65513, 0, 0, 0                # TESTALL: the statuses leave the memory
        .dword 34, a0, 1, 4, 0, 0, 0                    # TESTALL: the statuses are in the text
        .dword 34, a0, 2, 65489, 0, 0, 0                # TESTALL
        .dword 34, a0, 2, sts, 0, 0, 0                  # TESTALL: null requests
        .dword 100, sts, 7, 0, 0, 0, 0
        .dword 34, -1, 0, -1, 0, 0, 0                   # TESTALL: none, at any address
        .dword 34, -1, 0, 4, 0, 0, 0                    # TESTALL
        .dword 35, a1, 256, 0, 0, 0, 0                  # WAITALL
        .dword 35, 65528, 2, 0, 0, 0, 0                 # WAITALL
        .dword 35, a1, 1, 65536, 0, 0, 0                # WAITALL
        .dword 35, a0, 1, 4, 0, 0, 0                    # WAITALL
        .dword 35, a0, 2, 65489, 0, 0, 0                # WAITALL
        .dword 35, a0, 3, 0, 0, 0, 0                    # WAITALL: null requests
        .dword 35, -1, 0, -1, 0, 0, 0                   # WAITALL: none
        .dword 21, seen, 8, 1, 7, 0, 0                  # IRECV
        .dword 34, a1, 1, 0, 0, 0, 0                    # TESTALL: pending
        .dword 34, a1, 2, 0, 0, 0, 0                    # TESTALL: named twice
        .dword 34, a1, 2, 65536, 0, 0, 0                # TESTALL: named twice, and the statuses
        .dword 35, a1, 2, 0, 0, 0, 0                    # WAITALL
        .dword 34, a1, 1, 65536, 0, 0, 0                # TESTALL: the statuses are looked at also where it is pending
        .dword 19, text, 1, 1, 7, 0, 0                  # ISEND
        .dword 34, a2, 2, 0, 0, 0, 0                    # TESTALL: a complete send that is named twice is active too
        .dword 34, a2, 1, sts, 0, 0, 0                  # TESTALL
        .dword 100, sts, 4, 0, 0, 0, 0
        .dword 31, more, 8, 1, 7, 0, 0                  # RECV_INIT
        .dword 34, a2, 2, sts, 0, 0, 0                  # TESTALL: an inactive request may be named twice
        .dword 100, sts, 6, 0, 0, 0, 0
        .dword 32, 2, 0, 0, 0, 0, 0                     # START
        .dword 34, a2, 2, 0, 0, 0, 0                    # TESTALL: now it is active
        .dword 35, a2, 2, 0, 0, 0, 0                    # WAITALL
        .dword -1
rank1:  .dword -1
line:   .zero 512
