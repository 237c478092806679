# Rank 0 makes the calls of the table, with 2 ranks, a link each way and one communicator, and puts out a letter for the
# code of each, a being 0, and the digit that is its value. Where several checks would fail the first one gives the code:
# request 6, communicator 5, rank 4, tag 3, partition 9, count 2, buffer 1, active 12 or not active 16, ready 15, handles 8,
# and then the hub's: link 10. Requests 1 and 2 are its sides, 3 to 255 persistent sends to the null process.
        .ranks 2
        .link 0, 1
        .link 1, 0
_start: bnez a1, end
        la   s0, calls
next:   ld   a7, 0(s0)
        bltz a7, end
        ld   a0, 8(s0)
        ld   a1, 16(s0)
        ld   a2, 24(s0)
        ld   a3, 32(s0)
        ld   a4, 40(s0)
        ld   a5, 48(s0)
        li   t0, 30
        beq  a7, t0, fill
        ecall
tell:   addi a0, a0, 97
        addi a1, a1, 48
        sb   a0, -16(sp)
        sb   a1, -15(sp)
        addi a0, sp, -16
        li   a1, 2
        li   a7, 1
        ecall
        addi s0, s0, 56
        j    next
fill:   ecall                       # SEND_INIT until no handle is left: its code is FULL
        bnez a0, tell
        ld   a0, 8(s0)
        ld   a1, 16(s0)
        j    fill
end:    li   a0, 0
        li   a7, 0
        ecall
        .data
one:    .dword 1
calls:
        .dword 40, 4096, 4, 64, 2, 5, 8                     # PSEND_INIT: no such communicator, nor such a rank
        .dword 40, 4096, 4, 64, 2, -1, 0                    # PSEND_INIT: no such rank, nor such a tag
        .dword 40, 4096, 4, 64, -1, 5, 0                    # PSEND_INIT: ANY_SOURCE
        .dword 41, 4096, 4, 64, -2, 5, 0                    # PRECV_INIT: PROC_NULL
        .dword 41, 4096, 0, 64, 1, -1, 0                    # PRECV_INIT: ANY_TAG, and no partitions
        .dword 40, 4096, 4, 64, 1, 32768, 0                 # PSEND_INIT: a tag above 32,767
        .dword 40, 4096, 0, 0, 1, 5, 0                      # PSEND_INIT: no partitions, of no bytes
        .dword 41, 4096, 17, 64, 1, 5, 0                    # PRECV_INIT: 17 partitions
        .dword 40, 65536, 4, 0, 1, 5, 0                     # PSEND_INIT: no bytes, from beyond the memory
        .dword 40, 4096, 4, 12, 1, 5, 0                     # PSEND_INIT: no whole 8s
        .dword 41, 4096, 4, 136, 1, 5, 0                    # PRECV_INIT: above 128 bytes
        .dword 40, 65288, 4, 64, 1, 5, 0                    # PSEND_INIT: the last partition is beyond the memory
        .dword 41, 0, 4, 64, 1, 5, 0                        # PRECV_INIT: a receive would write the text
        .dword 40, 4096, 4, 64, 0, 5, 0                     # PSEND_INIT: no link joins a rank with itself
        .dword 40, 4096, 4, 64, 1, 5, 0                     # PSEND_INIT: the sending side
        .dword 40, 4096, 4, 64, 1, 5, 0                     # PSEND_INIT: the only link is reserved
        .dword 41, 4096, 4, 64, 1, 6, 0                     # PRECV_INIT: the receiving side
        .dword 42, 0, 0, 0, 0, 0, 0                         # PREADY of the null request
        .dword 42, 9, 0, 0, 0, 0, 0                         # of a handle that is not there
        .dword 42, 2, 0, 0, 0, 0, 0                         # of a receive
        .dword 43, 0, 0, 0, 0, 0, 0                         # PARRIVED of the null request
        .dword 43, 1, 0, 0, 0, 0, 0                         # of a send
        .dword 42, 1, 4, 0, 0, 0, 0                         # PREADY of partition 4 of 4, not started
        .dword 42, 1, 0, 0, 0, 0, 0                         # not started
        .dword 43, 2, 4, 0, 0, 0, 0                         # PARRIVED of partition 4 of 4
        .dword 43, 2, 0, 0, 0, 0, 0                         # of an inactive request
        .dword 22, 1, 0, 0, 0, 0, 0                         # TEST of an inactive request
        .dword 32, 0, 0, 0, 0, 0, 0                         # START of the null request
        .dword 32, 1, 0, 0, 0, 0, 0                         # START
        .dword 32, 1, 0, 0, 0, 0, 0                         # again
        .dword 33, 1, 0, 0, 0, 0, 0                         # REQUEST_FREE of an active request
        .dword 22, 1, 0, 0, 0, 0, 0                         # TEST before a partition is ready
        .dword 42, 1, 3, 0, 0, 0, 0                         # PREADY
        .dword 42, 1, 3, 0, 0, 0, 0                         # again
        .dword 42, 1, 0, 0, 0, 0, 0                         # PREADY of the lowest
        .dword 22, 1, 65530, 0, 0, 0, 0                     # TEST with a status beyond the memory
        .dword 22, 1, 0, 0, 0, 0, 0                         # TEST: nothing was taken
        .dword 32, 2, 0, 0, 0, 0, 0                         # START of the receive
        .dword 43, 2, 0, 0, 0, 0, 0                         # PARRIVED before the other side is there
        .dword 22, 2, 0, 0, 0, 0, 0                         # TEST of it
        .dword 34, one, 1, 0, 0, 0, 0                       # TESTALL of a partitioned request
        .dword 35, one, 1, 0, 0, 0, 0                       # WAITALL of it
        .dword 30, 0, 0, -2, 0, 0, 0                        # SEND_INIT until no handle is left
        .dword 42, 3, 0, 0, 0, 0, 0                         # PREADY of an ordinary persistent request
        .dword 43, 3, 0, 0, 0, 0, 0                         # PARRIVED of one
        .dword 40, 4096, 4, 64, 1, 5, 0                     # PSEND_INIT: no handle, nor a link
        .dword 41, 4096, 4, 4, 1, 6, 0                      # PRECV_INIT: no whole 8s, nor a handle
        .dword -1
