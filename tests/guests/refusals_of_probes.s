# IPROBE, PROBE, IMPROBE, MPROBE: each code, and of two faults the one that is looked at first.
# run: one --source; status 0
# behind: calls.guest
        .ranks 2
        .data
tables: .dword rank0, rank1
text:   .ascii "0123456789abcdef"
status: .dword 5, 5, 5
seen:   .ascii "????????????????"
more:   .ascii "????????????????"
rank0:  .dword 24, -1, -1, 2, 0, 0, 0                   # IPROBE: no such communicator
        .dword 24, 9, -5, 8, 4, 0, 0                    # IPROBE: everything
        .dword 24, 2, 7, 0, 0, 0, 0                     # IPROBE: no such rank
        .dword 24, -3, -2, 0, 0, 0, 0                   # IPROBE: rank and tag
        .dword 24, -1, -2, 0, 0, 0, 0                   # IPROBE
        .dword 24, -1, 32768, 0, 65536, 0, 0            # IPROBE: tag and status
        .dword 24, -1, -1, 0, 65530, 0, 0               # IPROBE
        .dword 24, -1, -1, 0, 4, 0, 0                   # IPROBE: the text
        .dword 24, -2, -5, 0, 0, 0, 0                   # IPROBE: the null process and a tag
        .dword 24, -2, 7, 0, 65530, 0, 0                # IPROBE: the null process and a status
        .dword 24, -2, 7, 0, status, 0, 0               # IPROBE: the null process
        .dword 100, status, 3, 0, 0, 0, 0
        .dword 25, -1, -1, 2, 0, 0, 0                   # PROBE: no such communicator
        .dword 25, 9, -5, 8, 4, 0, 0                    # PROBE: everything
        .dword 25, 2, 7, 0, 0, 0, 0                     # PROBE: no such rank
        .dword 25, -3, -2, 0, 0, 0, 0                   # PROBE: rank and tag
        .dword 25, -1, -2, 0, 0, 0, 0                   # PROBE
        .dword 25, -1, 32768, 0, 65536, 0, 0            # PROBE: tag and status
        .dword 25, -1, -1, 0, 65530, 0, 0               # PROBE
        .dword 25, -1, -1, 0, 4, 0, 0                   # PROBE: the text
        .dword 25, -2, -5, 0, 0, 0, 0                   # PROBE: the null process and a tag
        .dword 25, -2, 7, 0, 65530, 0, 0                # PROBE: the null process and a status
        .dword 25, -2, 7, 0, status, 0, 0               # PROBE: the null process
        .dword 100, status, 3, 0, 0, 0, 0
        .dword 26, -1, -1, 2, 0, 0, 0                   # IMPROBE: no such communicator
        .dword 26, 9, -5, 8, 4, 0, 0                    # IMPROBE: everything
        .dword 26, 2, 7, 0, 0, 0, 0                     # IMPROBE: no such rank
        .dword 26, -3, -2, 0, 0, 0, 0                   # IMPROBE: rank and tag
        .dword 26, -1, -2, 0, 0, 0, 0                   # IMPROBE
        .dword 26, -1, 32768, 0, 65536, 0, 0            # IMPROBE: tag and status
        .dword 26, -1, -1, 0, 65530, 0, 0               # IMPROBE
        .dword 26, -1, -1, 0, 4, 0, 0                   # IMPROBE: the text
        .dword 26, -2, -5, 0, 0, 0, 0                   # IMPROBE: the null process and a tag
        .dword 26, -2, 7, 0, 65530, 0, 0                # IMPROBE: the null process and a status
        .dword 26, -2, 7, 0, status, 0, 0               # IMPROBE: the null process
        .dword 100, status, 3, 0, 0, 0, 0
        .dword 27, -1, -1, 2, 0, 0, 0                   # MPROBE: no such communicator
        .dword 27, 9, -5, 8, 4, 0, 0                    # MPROBE: everything
        .dword 27, 2, 7, 0, 0, 0, 0                     # MPROBE: no such rank
        .dword 27, -3, -2, 0, 0, 0, 0                   # MPROBE: rank and tag
        .dword 27, -1, -2, 0, 0, 0, 0                   # MPROBE
        .dword 27, -1, 32768, 0, 65536, 0, 0            # MPROBE: tag and status
        .dword 27, -1, -1, 0, 65530, 0, 0               # MPROBE
        .dword 27, -1, -1, 0, 4, 0, 0                   # MPROBE: the text
        .dword 27, -2, -5, 0, 0, 0, 0                   # MPROBE: the null process and a tag
        .dword 27, -2, 7, 0, 65530, 0, 0                # MPROBE: the null process and a status
        .dword 27, -2, 7, 0, status, 0, 0               # MPROBE: the null process
        .dword 100, status, 3, 0, 0, 0, 0
        .dword -1
rank1:  .dword -1
line:   .zero 512
