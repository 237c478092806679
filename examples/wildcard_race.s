# Two ranks race to a third one, which receives from any source: the order of turns decides who is first.
#
# run: one --source; status 0
# run: one --source --order 0,2,1; status 0
#
# Ranks 1 and 2 do the same steps and each send one message to rank 0, which receives twice with ANY_SOURCE and ANY_TAG. By
# default the ranks take turns in the order 0, 1, 2: rank 1's message is sent first, and rank 0 puts out 1 before 2. With
# --order 0,2,1 it is the other way round. Both are right: MPI leaves it open which of two senders a wildcard receives first
# (MPI 4.1, 3.5), so a program must not lean on it. What is sure: both messages come, each once, and the status tells whose it was.
        .ranks 3

_start: beqz a1, root               # at the start a1 is the rank's number
        la   a0, sign               # ranks 1 and 2: one byte is enough
        li   a1, 1
        li   a2, 0                  # to rank 0
        li   a3, 7                  # tag
        li   a4, 0                  # communicator
        li   a7, 16                 # SEND
        ecall
        j    end
root:   jal  next
        jal  next
end:    li   a0, 0
        li   a7, 0                  # EXIT
        ecall

# next: receives a message of any source and any tag, and puts out its source's digit and a newline
next:   la   a0, byte
        li   a1, 1
        li   a2, -1                 # ANY_SOURCE
        li   a3, -1                 # ANY_TAG
        li   a4, 0
        la   a5, status             # three words: source, tag, number of bytes
        li   a7, 18                 # RECV
        ecall
        la   t0, status
        ld   t1, 0(t0)              # the source
        addi t1, t1, 48
        la   a0, line
        sb   t1, 0(a0)
        li   a1, 2
        li   a7, 1                  # PUT
        ecall
        ret

        .data
sign:   .ascii "!"
byte:   .zero 1
line:   .ascii "0\n"
        .balign 8
status: .zero 24
