# Communicator 2 is ranks 1, 0: probes and handles tell positions there.
# run: one --source; status 0
# behind: calls.guest
        .ranks 2
        .comm 0, 1
        .comm 1, 0
        .data
tables: .dword rank0, rank1
text:   .ascii "0123456789abcdef"
status: .dword 5, 5, 5
seen:   .ascii "????????????????"
more:   .ascii "????????????????"
rank0:  .dword 16, text, 1, 0, 7, 2, 0                  # SEND: to rank 1
        .dword 19, text, 2, 0, 8, 2, 0                  # ISEND: to rank 1
        .dword 16, text, 3, 0, 9, 2, 0                  # SEND: to rank 1
        .dword 102, 1, 0, 0, 0, 0, 0
        .dword 23, 1, 0, 0, 0, 0, 0                     # WAIT
        .dword -1
rank1:  .dword 103, 0, 0, 0, 0, 0, 0
        .dword 24, -1, -1, 0, status, 0, 0              # IPROBE: nothing in communicator 0
        .dword 24, 0, -1, 2, status, 0, 0               # IPROBE: nothing of rank 1 itself
        .dword 24, 1, -1, 2, status, 0, 0               # IPROBE
        .dword 100, status, 3, 0, 0, 0, 0
        .dword 21, seen, 8, 1, 8, 2, 0                  # IRECV
        .dword 23, 1, status, 0, 0, 0, 0                # WAIT
        .dword 100, status, 3, 0, 0, 0, 0
        .dword 27, -1, 9, 2, status, 0, 0               # MPROBE
        .dword 100, status, 3, 0, 0, 0, 0
        .dword 28, seen, 8, 7, 0, 0, 0                  # IMRECV
        .dword 23, 1, status, 0, 0, 0, 0                # WAIT: a position in the message's communicator
        .dword 100, status, 3, 0, 0, 0, 0
        .dword 18, seen, 8, -1, -1, 2, status           # RECV
        .dword 100, status, 3, 0, 0, 0, 0
        .dword -1
line:   .zero 512
