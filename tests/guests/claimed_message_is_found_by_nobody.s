# IMPROBE takes the only message: IPROBE finds none, IMRECV with its handle gets it, once.
# run: one --source; status 0
# behind: calls.guest
        .ranks 2
        .comm 0, 1
        .data
tables: .dword rank0, rank1
text:   .ascii "0123456789abcdef"
status: .dword 5, 5, 5
seen:   .ascii "????????????????"
more:   .ascii "????????????????"
rank0:  .dword 16, text, 10, 1, 7, 0, 0                 # SEND
        .dword 102, 1, 0, 0, 0, 0, 0
        .dword 103, 1, 0, 0, 0, 0, 0
        .dword 29, seen, 8, 5, 0, 0, 0                  # MRECV: claimed by the other rank
        .dword -1
rank1:  .dword 103, 0, 0, 0, 0, 0, 0
        .dword 24, -1, -1, 0, status, 0, 0              # IPROBE: it is there
        .dword 100, status, 3, 0, 0, 0, 0
        .dword 26, 0, 8, 0, more, 0, 0                  # IMPROBE: another tag: none
        # IMPROBE: the claim is post 5: after the send, the two posts of the first signal and one of the second
        .dword 26, -1, -1, 0, status, 0, 0
        .dword 100, status, 3, 0, 0, 0, 0
        .dword 24, -1, -1, 0, status, 0, 0              # IPROBE: nobody finds it
        .dword 26, -1, -1, 0, status, 0, 0              # IMPROBE
        .dword 100, status, 3, 0, 0, 0, 0
        .dword 102, 0, 0, 0, 0, 0, 0
        .dword 28, seen, 4, 5, 0, 0, 0                  # IMRECV
        .dword 28, seen, 4, 5, 0, 0, 0                  # IMRECV: once only
        .dword 29, seen, 4, 5, 0, 0, 0                  # MRECV
        .dword 101, seen, 8, 0, 0, 0, 0                 # not before the TEST
        .dword 22, 1, status, 0, 0, 0, 0                # TEST: truncated
        .dword 100, status, 3, 0, 0, 0, 0
        .dword 101, seen, 8, 0, 0, 0, 0
        .dword -1
line:   .zero 512
