# A claimed message that is longer than the buffer of MRECV, and one that is longer than IMRECV's.
# run: one --source; status 0
# behind: calls.guest
        .ranks 2
        .comm 0, 1
        .data
tables: .dword rank0, rank1
text:   .ascii "0123456789abcdef"
status: .dword 5, 5, 5
seen:   .ascii "????????????????"
more:   .ascii "????????????????"
rank0:  .dword 16, text, 10, 1, 7, 0, 0                 # SEND
        .dword 16, text, 16, 1, 7, 0, 0                 # SEND
        .dword 102, 1, 0, 0, 0, 0, 0
        .dword -1
rank1:  .dword 103, 0, 0, 0, 0, 0, 0
        .dword 27, 0, 7, 0, status, 0, 0                # MPROBE: the probe tells the whole length
        .dword 100, status, 3, 0, 0, 0, 0
        .dword 29, seen, 4, 5, status, 0, 0             # MRECV
        .dword 100, status, 3, 0, 0, 0, 0
        .dword 101, seen, 8, 0, 0, 0, 0
        .dword 29, seen, 4, 5, 0, 0, 0                  # MRECV: once only
        .dword 27, 0, 7, 0, 0, 0, 0                     # MPROBE
        .dword 28, more, 0, 6, 0, 0, 0                  # IMRECV: a buffer of no bytes
        .dword 23, 1, status, 0, 0, 0, 0                # WAIT
        .dword 100, status, 3, 0, 0, 0, 0
        .dword 101, more, 8, 0, 0, 0, 0
        .dword -1
line:   .zero 512
