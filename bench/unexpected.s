# The guest of bench/unexpected: rank 0 sends 10,000 messages of 8 bytes while rank 1 counts down. Only then does rank 1
# receive them, so all of them are unexpected and wait; meanwhile rank 0 counts down just as long. Each rank ends with the
# number in its last message.
        .ranks 2

_start: li   s2, 10000              # messages
        li   s3, 60100              # to count down from: longer than 20,000 messages take
        addi s1, sp, -8             # the buffer
        li   a3, 7                  # the tag
        li   a4, 0
        li   a5, 0                  # no status
        li   s5, 0
        bnez a1, late
        li   a2, 1
        li   a7, 16                 # SEND
give:   addi s5, s5, 1
        sd   s5, 0(s1)
        mv   a0, s1
        li   a1, 8
        ecall
        bltu s5, s2, give
rest:   addi s3, s3, -1
        bnez s3, rest
        j    end
late:   addi s3, s3, -1
        bnez s3, late
        li   a2, 0
        li   a7, 18                 # RECV
take:   addi s5, s5, 1
        mv   a0, s1
        li   a1, 8
        ecall
        ld   s4, 0(s1)
        bltu s5, s2, take
        mv   s5, s4
end:    mv   a0, s5
        li   a7, 0                  # EXIT
        ecall
