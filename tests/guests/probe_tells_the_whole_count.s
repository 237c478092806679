# A probe tells the whole length and takes nothing; messages are probed in the order of sending.
# run: one --source; status 0
# behind: calls.guest
        .ranks 2
        .comm 0, 1
        .data
tables: .dword rank0, rank1
text:   .ascii "0123456789abcdef"
status: .dword 5, 5, 5
seen:   .ascii "????????????????"
more:   .ascii "????????????????"
rank0:  .dword 16, text, 10, 1, 7, 0, 0                 # SEND
        .dword 16, text, 3, 1, 8, 0, 0                  # SEND
        .dword 16, text, 0, 1, 9, 0, 0                  # SEND
        .dword 102, 1, 0, 0, 0, 0, 0
        .dword -1
rank1:  .dword 103, 0, 0, 0, 0, 0, 0
        .dword 25, -1, -1, 0, status, 0, 0              # PROBE
        .dword 100, status, 3, 0, 0, 0, 0
        .dword 24, 0, 8, 0, status, 0, 0                # IPROBE
        .dword 100, status, 3, 0, 0, 0, 0
        .dword 24, -1, 10, 0, more, 0, 0                # IPROBE: none
        .dword 101, more, 8, 0, 0, 0, 0                 # nothing is written
        .dword 24, -1, -1, 0, 0, 0, 0                   # IPROBE: no status is wanted
        .dword 18, seen, 4, -1, -1, 0, status           # RECV: truncated
        .dword 100, status, 3, 0, 0, 0, 0
        .dword 25, -1, -1, 0, status, 0, 0              # PROBE
        .dword 100, status, 3, 0, 0, 0, 0
        .dword 27, 0, 9, 0, status, 0, 0                # MPROBE
        .dword 100, status, 3, 0, 0, 0, 0
        .dword 18, seen, 4, -1, -1, 0, status           # RECV: the one between
        .dword 100, status, 3, 0, 0, 0, 0
        .dword 29, seen, 4, 7, status, 0, 0             # MRECV
        .dword 100, status, 3, 0, 0, 0, 0
        .dword -1
line:   .zero 512
