# Calls with wrong arguments, of 2 ranks with nothing open: each has its one code in a0, 0 in a1, the hart goes on right
# behind it, and nothing else changes. At last no message came but the empty one, and the lowest handle is free.
# run: one --source; status 0
# behind: hostile.guest
        .ranks 2
first:  .ascii "0123456789abcdef"
tables: .dword rank0, rank1
wrong:  .dword 3
none:   .dword 0
notes:
rank0:
        .dword 22, 1, 0, 0, 0, 0, 0                         # TEST: nothing is open
        .dword 22, 256, 0, 0, 0, 0, 0                       # TEST
        .dword 22, -1, 0, 0, 0, 0, 0                        # TEST
        .dword 23, 1, 0, 0, 0, 0, 0                         # WAIT
        .dword 23, 255, 0, 0, 0, 0, 0                       # WAIT
        .dword 32, 0, 0, 0, 0, 0, 0                         # START of the null request
        .dword 32, -1, 0, 0, 0, 0, 0                        # START
        .dword 33, 0, 0, 0, 0, 0, 0                         # REQUEST_FREE of the null request
        .dword 33, 256, 0, 0, 0, 0, 0                       # REQUEST_FREE
        .dword 42, 0, 0, 0, 0, 0, 0                         # PREADY of the null request
        .dword 43, 0, 0, 0, 0, 0, 0                         # PARRIVED of the null request
        .dword 16, first, 1, 1, 7, 8, 0                     # SEND: communicator
        .dword 16, first, 5000, 9, -5, 8, 0                 # SEND: communicator, rank, tag and count
        .dword 16, first, 1, 1, 7, -1, 0                    # SEND: communicator
        .dword 16, first, 1, 2, 7, 0, 0                     # SEND: rank
        .dword 16, first, 1, -1, 7, 0, 0                    # SEND: rank, no wildcard
        .dword 16, first, 1, 1, -1, 0, 0                    # SEND: tag
        .dword 16, first, 1, 1, 32768, 0, 0                 # SEND: tag
        .dword 16, first, 4097, 1, 7, 0, 0                  # SEND: count
        .dword 16, first, -1, 1, 7, 0, 0                    # SEND: count
        .dword 16, 65535, 2, 1, 7, 0, 0                     # SEND: buffer
        .dword 16, -1, 2, 1, 7, 0, 0                        # SEND: a buffer that wraps
        .dword 16, -1, 0, 1, 7, 0, 0                        # SEND of no bytes, from anywhere
        .dword 18, first, 8, -3, 7, 0, 0                    # RECV: rank
        .dword 18, first, 8, 2, 7, 0, 0                     # RECV: rank
        .dword 18, first, 8, 1, -2, 0, 0                    # RECV: tag
        .dword 18, 0, 4, 1, 7, 0, 0                         # RECV: the text as its buffer
        .dword 18, first, 8, 1, 7, 0, 65530                 # RECV: status
        .dword 18, first, 8, 1, 7, 0, -8                    # RECV: a status that wraps
        .dword 29, first, 8, 0, 0, 0, 0                     # MRECV: message
        .dword 29, first, 8, -1, 0, 0, 0                    # MRECV: message
        .dword 29, first, 8, 1, 0, 0, 0                     # MRECV: message
        .dword 29, first, 8, -2, 0, 0, 0                    # MRECV of the null process's message
        .dword 28, first, 8, 0, 0, 0, 0                     # IMRECV: message
        .dword 34, first, 256, 0, 0, 0, 0                   # TESTALL: count
        .dword 35, first, -1, 0, 0, 0, 0                    # WAITALL: count
        .dword 34, 65529, 1, 0, 0, 0, 0                     # TESTALL: an array beyond the memory
        .dword 34, wrong, 1, 0, 0, 0, 0                     # TESTALL: the array names no request
        .dword 34, none, 1, 65530, 0, 0, 0                  # TESTALL: statuses
        .dword 2, 1, 0, 0, 0, 0, 0                          # RANK: communicator
        .dword 3, -1, 0, 0, 0, 0, 0                         # SIZE: communicator
        .dword 1, first, 4097, 0, 0, 0, 0                   # PUT: count
        .dword 1, 65535, 2, 0, 0, 0, 0                      # PUT: buffer
        .dword 5, 0, 0, 0, 0, 0, 0                          # no such call
        .dword 6, 0, 0, 0, 0, 0, 0                          # no such call
        .dword 15, 0, 0, 0, 0, 0, 0                         # no such call
        .dword 36, 0, 0, 0, 0, 0, 0                         # no such call
        .dword 39, 0, 0, 0, 0, 0, 0                         # no such call
        .dword 44, 0, 0, 0, 0, 0, 0                         # no such call
        .dword 256, 0, 0, 0, 0, 0, 0                        # no such call
        .dword 9223372036854775807, 0, 0, 0, 0, 0, 0        # no such call
        .dword 24, -1, -1, 0, 0, 0, 0                       # IPROBE: nothing came
        .dword 21, first, 8, 1, 7, 0, 0                     # IRECV: no handle was taken
        .dword -1
rank1:
        .dword 18, first, 8, 0, 7, 0, 0                     # RECV of the empty message
        .dword 24, -1, -1, 0, 0, 0, 0                       # IPROBE: no other came
        .dword 21, first, 8, 0, 7, 0, 0                     # IRECV: no handle was taken
        .dword -1
