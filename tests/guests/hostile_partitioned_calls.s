# Partitioned calls with wrong arguments: each has its one code in a0, 0 in a1, the hart goes on right behind it, and
# nothing else changes. Rank 1 begins once rank 0 has made its calls: the links are reserved then.
# run: one --source; status 0
# behind: hostile.guest
        .ranks 2
        .link 0, 1
        .link 1, 0
first:  .ascii "0123456789abcdef0123456789abcdef"
tables: .dword rank0, rank1
one:    .dword 1
notes:
rank0:
        .dword 40, first, 4, 8, 1, 5, 1                     # PSEND_INIT: communicator
        .dword 40, first, 4, 8, 1, 5, 8                     # PSEND_INIT: communicator
        .dword 40, first, 4, 8, 1, 5, -1                    # PSEND_INIT: communicator
        .dword 40, first, 4, 8, 2, 5, 0                     # PSEND_INIT: rank
        .dword 40, first, 4, 8, -1, 5, 0                    # PSEND_INIT: rank
        .dword 40, first, 4, 8, -2, 5, 0                    # PSEND_INIT: rank
        .dword 40, first, 4, 8, -3, 5, 0                    # PSEND_INIT: rank
        .dword 40, first, 4, 8, 4294967296, 5, 0            # PSEND_INIT: rank
        .dword 40, first, 4, 8, 1, -1, 0                    # PSEND_INIT: tag
        .dword 40, first, 4, 8, 1, -2, 0                    # PSEND_INIT: tag
        .dword 40, first, 4, 8, 1, 32768, 0                 # PSEND_INIT: tag
        .dword 40, first, 4, 8, 1, 4294967296, 0            # PSEND_INIT: tag
        .dword 40, first, 0, 8, 1, 5, 0                     # PSEND_INIT: partitions
        .dword 40, first, 17, 8, 1, 5, 0                    # PSEND_INIT: partitions
        .dword 40, first, 256, 8, 1, 5, 0                   # PSEND_INIT: partitions
        .dword 40, first, -1, 8, 1, 5, 0                    # PSEND_INIT: partitions
        .dword 40, first, 4, 0, 1, 5, 0                     # PSEND_INIT: bytes
        .dword 40, first, 4, 4, 1, 5, 0                     # PSEND_INIT: bytes
        .dword 40, first, 4, 12, 1, 5, 0                    # PSEND_INIT: bytes
        .dword 40, first, 4, 136, 1, 5, 0                   # PSEND_INIT: bytes
        .dword 40, first, 4, 4294967304, 1, 5, 0            # PSEND_INIT: bytes
        .dword 40, first, 4, -8, 1, 5, 0                    # PSEND_INIT: bytes
        .dword 40, 65529, 1, 8, 1, 5, 0                     # PSEND_INIT: buffer
        .dword 40, 65536, 1, 8, 1, 5, 0                     # PSEND_INIT: buffer
        .dword 40, -8, 1, 8, 1, 5, 0                        # PSEND_INIT: buffer
        .dword 40, 65505, 4, 8, 1, 5, 0                     # PSEND_INIT: the last partition's end
        .dword 41, first, 4, 8, 1, 5, 1                     # PRECV_INIT: communicator
        .dword 41, first, 4, 8, 1, 5, 8                     # PRECV_INIT: communicator
        .dword 41, first, 4, 8, 1, 5, -1                    # PRECV_INIT: communicator
        .dword 41, first, 4, 8, 2, 5, 0                     # PRECV_INIT: rank
        .dword 41, first, 4, 8, -1, 5, 0                    # PRECV_INIT: rank
        .dword 41, first, 4, 8, -2, 5, 0                    # PRECV_INIT: rank
        .dword 41, first, 4, 8, -3, 5, 0                    # PRECV_INIT: rank
        .dword 41, first, 4, 8, 4294967296, 5, 0            # PRECV_INIT: rank
        .dword 41, first, 4, 8, 1, -1, 0                    # PRECV_INIT: tag
        .dword 41, first, 4, 8, 1, -2, 0                    # PRECV_INIT: tag
        .dword 41, first, 4, 8, 1, 32768, 0                 # PRECV_INIT: tag
        .dword 41, first, 4, 8, 1, 4294967296, 0            # PRECV_INIT: tag
        .dword 41, first, 0, 8, 1, 5, 0                     # PRECV_INIT: partitions
        .dword 41, first, 17, 8, 1, 5, 0                    # PRECV_INIT: partitions
        .dword 41, first, 256, 8, 1, 5, 0                   # PRECV_INIT: partitions
        .dword 41, first, -1, 8, 1, 5, 0                    # PRECV_INIT: partitions
        .dword 41, first, 4, 0, 1, 5, 0                     # PRECV_INIT: bytes
        .dword 41, first, 4, 4, 1, 5, 0                     # PRECV_INIT: bytes
        .dword 41, first, 4, 12, 1, 5, 0                    # PRECV_INIT: bytes
        .dword 41, first, 4, 136, 1, 5, 0                   # PRECV_INIT: bytes
        .dword 41, first, 4, 4294967304, 1, 5, 0            # PRECV_INIT: bytes
        .dword 41, first, 4, -8, 1, 5, 0                    # PRECV_INIT: bytes
        .dword 41, 65529, 1, 8, 1, 5, 0                     # PRECV_INIT: buffer
        .dword 41, 65536, 1, 8, 1, 5, 0                     # PRECV_INIT: buffer
        .dword 41, -8, 1, 8, 1, 5, 0                        # PRECV_INIT: buffer
        .dword 41, 65505, 4, 8, 1, 5, 0                     # PRECV_INIT: the last partition's end
        .dword 41, 0, 1, 8, 1, 5, 0                         # PRECV_INIT: the text as its buffer
        .dword 40, -1, 0, 0, 9, -1, 8                       # PSEND_INIT: communicator, and all behind
        .dword 40, -1, 0, 0, 9, -1, 0                       # PSEND_INIT: rank, and all behind
        .dword 40, -1, 0, 0, 1, -1, 0                       # PSEND_INIT: tag, and all behind
        .dword 40, -1, 0, 0, 1, 5, 0                        # PSEND_INIT: partitions, and all behind
        .dword 40, -1, 1, 0, 1, 5, 0                        # PSEND_INIT: bytes, and the buffer
        .dword 40, first, 1, 8, 0, 5, 0                     # PSEND_INIT to itself: no link
        .dword 42, 0, 0, 0, 0, 0, 0                         # PREADY: handle
        .dword 42, 1, 0, 0, 0, 0, 0                         # PREADY: handle
        .dword 42, 255, 0, 0, 0, 0, 0                       # PREADY: handle
        .dword 42, 256, 0, 0, 0, 0, 0                       # PREADY: handle
        .dword 42, -1, 0, 0, 0, 0, 0                        # PREADY: handle
        .dword 43, 0, 0, 0, 0, 0, 0                         # PARRIVED: handle
        .dword 43, 1, 0, 0, 0, 0, 0                         # PARRIVED: handle
        .dword 43, 255, 0, 0, 0, 0, 0                       # PARRIVED: handle
        .dword 43, 256, 0, 0, 0, 0, 0                       # PARRIVED: handle
        .dword 43, -1, 0, 0, 0, 0, 0                        # PARRIVED: handle
        .dword 32, 0, 0, 0, 0, 0, 0                         # START: handle
        .dword 32, 1, 0, 0, 0, 0, 0                         # START: handle
        .dword 32, 255, 0, 0, 0, 0, 0                       # START: handle
        .dword 32, 256, 0, 0, 0, 0, 0                       # START: handle
        .dword 32, -1, 0, 0, 0, 0, 0                        # START: handle
        .dword 33, 0, 0, 0, 0, 0, 0                         # REQUEST_FREE: handle
        .dword 33, 1, 0, 0, 0, 0, 0                         # REQUEST_FREE: handle
        .dword 33, 255, 0, 0, 0, 0, 0                       # REQUEST_FREE: handle
        .dword 33, 256, 0, 0, 0, 0, 0                       # REQUEST_FREE: handle
        .dword 33, -1, 0, 0, 0, 0, 0                        # REQUEST_FREE: handle
        .dword 40, 0, 4, 8, 1, 5, 0                         # PSEND_INIT, from the text
        .dword 41, first, 2, 8, 1, 6, 0                     # PRECV_INIT
        .dword 40, first, 1, 8, 1, 7, 0                     # PSEND_INIT: the link is reserved
        .dword 42, 2, 0, 0, 0, 0, 0                         # PREADY of a receive
        .dword 43, 1, 0, 0, 0, 0, 0                         # PARRIVED of a send
        .dword 42, 1, 4, 0, 0, 0, 0                         # PREADY: partition
        .dword 42, 1, 16, 0, 0, 0, 0                        # PREADY: partition
        .dword 42, 1, 4294967296, 0, 0, 0, 0                # PREADY: partition
        .dword 42, 1, -1, 0, 0, 0, 0                        # PREADY: partition
        .dword 43, 2, 2, 0, 0, 0, 0                         # PARRIVED: partition
        .dword 43, 2, 16, 0, 0, 0, 0                        # PARRIVED: partition
        .dword 43, 2, -1, 0, 0, 0, 0                        # PARRIVED: partition
        .dword 42, 1, 0, 0, 0, 0, 0                         # PREADY before START
        .dword 22, 1, 65530, 0, 0, 0, 0                     # TEST: status
        .dword 34, one, 1, 0, 0, 0, 0                       # TESTALL of a partitioned request
        .dword 32, 1, 0, 0, 0, 0, 0                         # START
        .dword 32, 1, 0, 0, 0, 0, 0                         # START: active
        .dword 33, 1, 0, 0, 0, 0, 0                         # REQUEST_FREE: active
        .dword 42, 1, 4, 0, 0, 0, 0                         # PREADY: partition
        .dword 42, 1, 3, 0, 0, 0, 0                         # PREADY
        .dword 42, 1, 3, 0, 0, 0, 0                         # PREADY: ready
        .dword 23, 1, 65530, 0, 0, 0, 0                     # WAIT: status
        .dword 34, one, 1, 0, 0, 0, 0                       # TESTALL of a partitioned request
        .dword 21, first, 8, 1, 7, 0, 0                     # IRECV: two handles were taken
        .dword 16, first, 0, 1, 7, 0, 0                     # SEND: rank 1 goes on behind it
        .dword -1
rank1:
        .dword 18, first, 8, 0, 7, 0, 0                     # RECV: rank 0 has made its calls
        .dword 40, first, 1, 8, 0, 7, 0                     # PSEND_INIT: the link is reserved
        .dword 40, first, 1, 8, 0, 6, 0                     # PSEND_INIT: another total
        .dword 41, first, 2, 8, 0, 5, 0                     # PRECV_INIT: another total
        .dword 41, first, 2, 8, 0, 7, 0                     # PRECV_INIT: the link is reserved
        .dword 41, first, 2, 16, 0, 5, 0                    # PRECV_INIT: the same total, cut otherwise
        .dword 21, first, 8, 0, 7, 0, 0                     # IRECV: one handle was taken
        .dword -1
