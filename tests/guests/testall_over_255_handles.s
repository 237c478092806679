# TESTALL over 255 receives, of which the last message comes last; then over 255 handles of which none is open any more.
# run: one --source; status 0
# behind: repeated_calls.guest
        .data
tables: .dword rank0
text:   .ascii "0123456789abcdef"
next:   .ascii "ABCDEFGHIJKLMNOP"
last:   .ascii "QRSTUVWXYZ!@$%&*"
status: .dword 5, 5, 5
seen:   .ascii "????????????????"
more:   .ascii "????????????????"
sts:    .dword 5, 5, 5, 5, 5, 5, 5, 5, 5, 5, 5, 5
all:    .dword 1, 2, 3, 4, 5, 6, 7, 8, 9, 10, 11, 12, 13, 14, 15, 16
        .dword 17, 18, 19, 20, 21, 22, 23, 24, 25, 26, 27, 28, 29, 30, 31, 32
        .dword 33, 34, 35, 36, 37, 38, 39, 40, 41, 42, 43, 44, 45, 46, 47, 48
        .dword 49, 50, 51, 52, 53, 54, 55, 56, 57, 58, 59, 60, 61, 62, 63, 64
        .dword 65, 66, 67, 68, 69, 70, 71, 72, 73, 74, 75, 76, 77, 78, 79, 80
        .dword 81, 82, 83, 84, 85, 86, 87, 88, 89, 90, 91, 92, 93, 94, 95, 96
        .dword 97, 98, 99, 100, 101, 102, 103, 104, 105, 106, 107, 108, 109, 110, 111, 112
        .dword 113, 114, 115, 116, 117, 118, 119, 120, 121, 122, 123, 124, 125, 126, 127, 128
        .dword 129, 130, 131, 132, 133, 134, 135, 136, 137, 138, 139, 140, 141, 142, 143, 144
        .dword 145, 146, 147, 148, 149, 150, 151, 152, 153, 154, 155, 156, 157, 158, 159, 160
        .dword 161, 162, 163, 164, 165, 166, 167, 168, 169, 170, 171, 172, 173, 174, 175, 176
        .dword 177, 178, 179, 180, 181, 182, 183, 184, 185, 186, 187, 188, 189, 190, 191, 192
        .dword 193, 194, 195, 196, 197, 198, 199, 200, 201, 202, 203, 204, 205, 206, 207, 208
        .dword 209, 210, 211, 212, 213, 214, 215, 216, 217, 218, 219, 220, 221, 222, 223, 224
        .dword 225, 226, 227, 228, 229, 230, 231, 232, 233, 234, 235, 236, 237, 238, 239, 240
        .dword 241, 242, 243, 244, 245, 246, 247, 248, 249, 250, 251, 252, 253, 254, 255
stss:   .zero 6120
last3:  .dword 255, 0, 7
rank0:  .dword 104, 255, 0, 0, 0, 0, 0
        .dword 21, seen, 16, 0, 5, 0, 0                 # IRECV: from itself
        .dword 34, all, 255, stss, 0, 0, 0              # TESTALL: none is complete
        .dword 104, 254, 0, 0, 0, 0, 0
        .dword 16, text, 3, 0, 5, 0, 0                  # SEND
        .dword 34, all, 255, stss, 0, 0, 0              # TESTALL: 254 are
        .dword 100, stss, 3, 0, 0, 0, 0                 # as they were
        .dword 16, text, 4, 0, 5, 0, 0                  # SEND
        .dword 34, all, 255, stss, 0, 0, 0              # TESTALL: all are
        .dword 100, stss, 6, 0, 0, 0, 0
        .dword 100, all, 3, 0, 0, 0, 0                  # as they were
        .dword 101, seen, 8, 0, 0, 0, 0                 # the last one's bytes
        .dword 34, all, 255, stss, 0, 0, 0              # TESTALL: none is open
        .dword 34, all, 256, stss, 0, 0, 0              # TESTALL
        .dword 34, all, 0, 0, 0, 0, 0                   # TESTALL
        .dword 104, 255, 0, 0, 0, 0, 0
        .dword 30, text, 2, 0, 6, 0, 0                  # SEND_INIT
        .dword 35, all, 255, stss, 0, 0, 0              # WAITALL: all are inactive
        .dword 100, stss, 6, 0, 0, 0, 0
        .dword 32, 255, 0, 0, 0, 0, 0                   # START
        .dword 32, 1, 0, 0, 0, 0, 0                     # START
        .dword 35, all, 255, stss, 0, 0, 0              # WAITALL: sends
        .dword 33, 255, 0, 0, 0, 0, 0                   # REQUEST_FREE
        .dword 31, more, 16, -1, 6, 0, 0                # RECV_INIT
        .dword 32, 255, 0, 0, 0, 0, 0                   # START
        .dword 32, 3, 0, 0, 0, 0, 0                     # START
        .dword 34, all, 255, stss, 0, 0, 0              # TESTALL
        .dword 35, last3, 3, sts, 0, 0, 0               # WAITALL: two inactive requests and the null one
        .dword 100, sts, 9, 0, 0, 0, 0
        .dword -1
line:   .zero 512
