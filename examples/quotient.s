# A program with a bug, for docs/DEBUGGING.md: it takes two messages of any source and assumes which of them comes first.
#
# run: one --source; status 0
# run: one --source --order 0,2,1; status 0
#
# Rank 1 sends the number 84 and rank 2 the number 12, each in one message to rank 0, which divides the first by the second
# and puts the quotient out. It receives twice with ANY_SOURCE, and takes what comes first for the dividend. By default
# rank 1's message is sent first, and 7 is put out. With --order 0,2,1 it is rank 2's, and 0 is put out: 12 / 84.
        .ranks 3
        .globl send                 # a rank is about to send
        .globl received             # the first message is there
        .globl divide               # both are
        .globl dividend
        .globl divisor
        .globl status

_start: beqz a1, root               # at the start a1 is the rank's number
        la   a0, numbers            # rank 1 sends the first of the numbers, rank 2 the second
        addi a1, a1, -1
        slli a1, a1, 3
        add  a0, a0, a1
        li   a1, 8
        li   a2, 0                  # to rank 0
        li   a3, 0                  # tag
        li   a4, 0                  # communicator
        li   a7, 16                 # SEND
send:   ecall
        j    end

root:   la   a0, dividend
        jal  receive
received:
        la   a0, divisor
        jal  receive
divide: la   t0, dividend
        ld   t1, 0(t0)
        ld   t2, 8(t0)              # the divisor
        divu t1, t1, t2
        addi t1, t1, 48             # its digit
        la   a0, line
        sb   t1, 0(a0)
        li   a1, 2
        li   a7, 1                  # PUT
        ecall
end:    li   a0, 0
        li   a7, 0                  # EXIT
        ecall

# receive: takes a message of any source and any tag, with its 8 bytes at a0
receive:
        li   a1, 8
        li   a2, -1                 # ANY_SOURCE
        li   a3, -1                 # ANY_TAG
        li   a4, 0
        la   a5, status             # three words: source, tag, number of bytes
        li   a7, 18                 # RECV
        ecall
        ret

        .data
        .balign 8
numbers:
        .dword 84
        .dword 12
dividend:
        .dword 0
divisor:
        .dword 0
status: .zero 24
line:   .ascii "0\n"
