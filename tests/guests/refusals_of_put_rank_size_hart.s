# PUT, RANK, SIZE, HART and numbers that no call has: each code.
# run: one --source; status 0
# behind: calls.guest
        .ranks 3
        .comm 2, 0
        .comm 1
        .data
tables: .dword rank0, rank1, rank2
text:   .ascii "0123456789"
        .balign 8
status: .zero 24
seen:   .zero 16
rank0:  .dword 1, text, 4, 0, 0, 0, 0                   # PUT
        .dword 1, 65536, 0, 0, 0, 0, 0                  # PUT: no bytes, behind the memory
        .dword 1, -1, 0, 0, 0, 0, 0                     # PUT: no bytes, at the last address
        .dword 1, text, 4097, 0, 0, 0, 0                # PUT: too many
        .dword 1, -1, 4097, 0, 0, 0, 0                  # PUT: too many, before the range is looked at
        .dword 1, 65535, 2, 0, 0, 0, 0                  # PUT: out of the memory
        .dword 16, text, 10, 0, 1, 0, 0                 # SEND: to itself
        .dword 18, 65526, 10, 0, 1, 0, 0                # RECV
        .dword 1, 65526, 10, 0, 0, 0, 0                 # PUT: the end of memory
        .dword 1, -1, 1, 0, 0, 0, 0                     # PUT: the last address
        .dword 1, -8, 16, 0, 0, 0, 0                    # PUT: round the end of addresses
        .dword 2, 0, 0, 0, 0, 0, 0                      # RANK
        .dword 2, 1, 0, 0, 0, 0, 0                      # RANK: a communicator of which it is the second
        .dword 2, 2, 0, 0, 0, 0, 0                      # RANK: a communicator of which it is no member
        .dword 2, 3, 0, 0, 0, 0, 0                      # RANK: no such communicator
        .dword 2, 8, 0, 0, 0, 0, 0                      # RANK
        .dword 2, -1, 0, 0, 0, 0, 0                     # RANK
        .dword 2, 256, 0, 0, 0, 0, 0                    # RANK
        .dword 3, 0, 0, 0, 0, 0, 0                      # SIZE
        .dword 3, 1, 0, 0, 0, 0, 0                      # SIZE
        .dword 3, 2, 0, 0, 0, 0, 0                      # SIZE
        .dword 3, 3, 0, 0, 0, 0, 0                      # SIZE
        .dword 3, -1, 0, 0, 0, 0, 0                     # SIZE
        .dword 4, 0, 0, 0, 0, 0, 0                      # HART
        .dword 4, 7, 7, 7, 7, 7, 7                      # HART: whatever the arguments
        .dword 5, 0, 0, 0, 0, 0, 0                      # no such call
        .dword 15, 0, 0, 0, 0, 0, 0
        .dword 36, 0, 0, 0, 0, 0, 0
        .dword 39, 0, 0, 0, 0, 0, 0
        .dword 44, 0, 0, 0, 0, 0, 0
        .dword 99, 0, 0, 0, 0, 0, 0
        .dword 65536, 0, 0, 0, 0, 0, 0                  # 1 in its third byte
        .dword 4294967296, 0, 0, 0, 0, 0, 0             # 0 in its low word
        .dword -1
rank1:  .dword -1
rank2:  .dword -1
line:   .zero 512
