# Rank 0 receives messages of lengths that it doesn't know: PROBE tells the length before a buffer is chosen.
#
# run: one --source; status 0
#
# Rank 1 sends three words of different lengths, and then a message of no bytes, which ends the row. Rank 0 probes for any message of
# rank 1, reads its length from the status, and receives just that many bytes at the place where the last word ended. Look at its one
# line: the three words stand without a gap. PROBE takes nothing, so the RECV behind it gets the very message that it told of: with one
# hart in the rank, nobody else can receive it in between.
        .ranks 2

_start: bnez a1, words
        la   s0, line               # where the next word goes
        la   s1, status
next:   li   a0, 1                  # source: rank 1
        li   a1, -1                 # ANY_TAG
        li   a2, 0                  # communicator 0
        mv   a3, s1
        li   a7, 25                 # PROBE: waits until there is a message
        ecall
        ld   s2, 16(s1)             # its number of bytes
        mv   a0, s0
        mv   a1, s2                 # just as many
        li   a2, 1
        ld   a3, 8(s1)              # its tag
        li   a4, 0
        li   a5, 0
        li   a7, 18                 # RECV
        ecall
        add  s0, s0, s2
        bnez s2, next
        la   a0, line
        sub  a1, s0, a0
        li   a7, 1                  # PUT
        ecall
        j    end

words:  la   s0, table
send:   ld   a0, 0(s0)              # the word's address
        ld   s1, 8(s0)              # and its length
        mv   a1, s1
        li   a2, 0                  # to rank 0
        li   a3, 3
        li   a4, 0
        li   a7, 16                 # SEND
        ecall
        addi s0, s0, 16
        bnez s1, send               # the last has no bytes
end:    li   a0, 0
        li   a7, 0                  # EXIT
        ecall

        .data
table:  .dword one, 6, two, 3, three, 10, table, 0
one:    .ascii "probe "
two:    .ascii "is "
three:  .ascii "a preview\n"
        .balign 8
status: .zero 24
line:   .zero 64
