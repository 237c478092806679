"""The page of a long record."""

import json

import formats
from walks import GO, SHOWN

# Four ranks update a table by calls of a function, over and over. After each round a rank sends 64 bytes of it round a
# ring, and after 64 rounds it prints a line. The words are long, so a step takes more bytes of the page than in most
# programs
LONG = b"""\
.ranks 4
        mv   s0, a1
        addi s1, s0, 1
        andi s1, s1, 3
        addi s2, s0, 3
        andi s2, s2, 3
        la   s3, table
        li   s4, 0
round:  li   s5, 0
each:   add  t0, s3, s5
        ld   a0, 0(t0)
        jal  mix
        sd   a0, 0(t0)
        addi s5, s5, 8
        slti t1, s5, 1024
        bnez t1, each
        li   a1, 64
        li   a3, 5
        li   a4, 0
        li   a5, 0
        mv   a0, s3
        mv   a2, s1
        li   a7, 16
        ecall
        addi a0, s3, 512
        mv   a2, s2
        li   a7, 18
        ecall
        addi s4, s4, 1
        andi t1, s4, 63
        bnez t1, round
        la   a0, text
        li   a1, 13
        li   a7, 1
        ecall
        j    round
mix:    slli t2, a0, 3
        xor  a0, a0, t2
        add  a0, a0, s0
        addi a0, a0, 1
        ret
        .data
        .globl table
table:  .zero 1024
        .globl text
text:   .ascii "rounds added\\n"
"""

# the steps of its page; the most bytes of the file, of all that the script keeps, and of its objects alone: with an
# object for each step they would be more
LONG_STEPS = 1_561_916
PAGE_MOST, KEPT_MOST, OBJECTS_MOST = 48_000_000, 150_000_000, 16_000_000


def expect_long(pages):
    """Expects the page of a long record to be small, and to show what `debug` prints at its ends and far from them."""
    record = pages.told(["one", "--source", "--record", "--budget", str(LONG_STEPS // 4 + 1)], LONG)[1]
    status, page, fault = pages.told(["page", "--to", str(LONG_STEPS)], record)
    pages.expect("long: status", (status, fault), (0, b""))
    if status:
        return
    pages.walked += 1
    pages.expect(f"long: a page of {len(page)} bytes", len(page) <= PAGE_MOST, True)
    pages.open(page)
    expect_far(pages, record, formats.read_image(pages.told(["asm"], LONG)[1]))
    objects, arrays = pages.browser.kept()
    pages.expect(f"long: objects of {objects} bytes", objects <= OBJECTS_MOST, True)
    pages.expect(f"long: {objects + arrays} bytes kept", objects + arrays <= KEPT_MOST, True)
    pages.expect("long: console", pages.browser.told(), [])


def expect_far(pages, record, image):
    """Goes to the end of the record, to its start, far from both and one step back, and expects what `debug` prints."""
    far = LONG_STEPS * 5 // 8
    press = pages.browser.press
    deeds = {LONG_STEPS: lambda: press("End"), 0: lambda: press("Home"), far: lambda: pages.browser.value(GO % far)}
    deeds[far - 1] = lambda: press("ArrowLeft")
    expected, addresses = pages.debugged(record, image, deeds)
    for (place, deed), machine in zip(deeds.items(), expected):
        deed()
        pages.expect_place(f"long {place}", json.loads(pages.browser.value(SHOWN % addresses)), machine)
