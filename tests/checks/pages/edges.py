"""Pages of rare records: of every byte, wide outputs, many marks, a full stack, a partition that nobody takes."""

import json

import formats
from walks import GO, TOP, element

# puts out each byte from 0 to 255, and then what would end a script
EVERY_BYTE = b"""\
.data
text: .ascii "</script></svg><script>alert(1)</script><!--"
.text
        li   x5, 0
        addi x6, x2, -256
fill:   add  x7, x6, x5
        sb   x5, 0(x7)
        addi x5, x5, 1
        slti x8, x5, 256
        bne  x8, x0, fill
        mv   a0, x6
        li   a1, 256
        li   a7, 1
        ecall
        la   a0, text
        li   a1, 44
        li   a7, 1
        ecall
        li   a0, 0
        li   a7, 0
        ecall
"""

# calls that are refused, each of which has a mark
REFUSED = b"""\
        li   x5, 5001
again:  li   a7, 99
        ecall
        addi x5, x5, -1
        bne  x5, x0, again
        li   a0, 0
        li   a7, 0
        ecall
"""

# the stack has grown into the text
FULL_STACK = b"""\
        li   sp, 0
        sd   x0, -8(sp)
"""

# the first and the last of eight ranks put out 40 of the widest letter
WIDE = b"""\
.ranks 8
.data
text: .ascii "WWWWWWWWWWWWWWWWWWWWWWWWWWWWWWWWWWWWWWWW"
.text
        li   t0, 7
        beqz a1, put
        bne  a1, t0, end
put:    la   a0, text
        li   a1, 40
        li   a7, 1
        ecall
end:    li   a0, 0
        li   a7, 0
        ecall
"""

# how many elements of scripts a page has: eight parts of its data, and the script that runs
SCRIPTS = 9
COUNTED = "document.getElementsByTagName('script').length"


def expect_letters(pages):
    """Expects all bytes that a guest may put out to be made safe."""
    record = pages.told(["one", "--source", "--record"], EVERY_BYTE)[1]
    pages.expect_walk("every byte", record)
    scripts = pages.browser.value(COUNTED)
    pages.expect("every byte: scripts", scripts, SCRIPTS)


def expect_wide(pages):
    """Expects the outputs of the first and the last lane to stand in the picture, uncut, however wide they are."""
    pages.expect_walk("wide outputs", pages.told(["one", "--source", "--record"], WIDE)[1])
    notes = "[...document.querySelectorAll('#page-picture g[id^=step]>text')]"
    wide = f"{notes}.filter(one => /^WW/.test(one.textContent)).length"
    pages.expect("wide outputs: both", pages.browser.value(wide), 2)


def expect_many(pages):
    """Expects a page with no picture where there are more marks than a picture has."""
    record = pages.told(["one", "--source", "--record"], REFUSED)[1]
    pages.expect_walk("5001 refusals", record)
    text = pages.browser.value("document.getElementById('page-picture').innerText")
    pages.expect("5001 refusals: no picture", "more marks than a picture may have" in text, True)


def expect_full_stack(pages):
    """Expects a page to say of a store that failed because the stack is full, what docs/DEBUGGING.md says of `why`."""
    pages.open_record(pages.told(["one", "--source", "--record"], FULL_STACK)[1], 2)
    said = pages.browser.value("document.querySelector('#page-harts button').textContent")
    pages.expect("full stack", said, "rank 0 hart 0 trapped 7 (stack overflow) at 0x4")


def expect_untaken(pages):
    """Expects a partition that was made ready and never taken to be on the way to the end, and to have a broken arrow.

    In examples/missing_ready.s rank 0 makes partitions 0, 1 and 3 of link 0 ready; rank 1 waits for 2, and so never
    takes 3."""
    with open(f"{TOP}/examples/missing_ready.s", "rb") as file:
        record = pages.told(["one", "--source", "--until-stuck", "--record"], file.read())[1]
    steps = formats.read_record(record)[1]
    made = [place for place, step in enumerate(steps) if step.kind == formats.READY]
    pages.open_record(record, len(steps))
    ways = pages.browser.value(f"{element('ways-now')}.innerText")
    way = f"rank 0 to 1: partition 3 of link 0, phase 1; sent at step {made[2]}, got by nobody"
    pages.expect("untaken: on the way", ways, way)
    lost = "[...document.querySelectorAll('#page-picture .part.lost')]"
    told = pages.browser.value(f"{lost}.map(one => one.parentNode.firstChild.textContent).join()")
    title = f"step {made[2]} of rank 0 to rank 1, where nobody got it: link 0 partition 3 phase 1"
    pages.expect("untaken: a broken arrow", told, title)
    pages.browser.value(GO % made[2])
    pages.expect("untaken: before it's ready", way in pages.browser.value(f"{element('ways-now')}.innerText"), False)


def expect_sources(pages):
    """Expects a page to have the sources that stand behind its record, whatever bytes they have."""
    record = pages.told(["one", "--source", "--record"], EVERY_BYTE)[1]
    texts = {"every.c": bytes(range(256)), "a<b>.h": b"</script><script>alert(1)</script>\n", "empty": b""}
    pages.open_record(record, 0, texts.items())
    shown = json.loads(pages.browser.value("JSON.stringify([...sources])"))
    parts = {name: text.decode("utf-8", "replace") for name, text in texts.items()}
    lines = [[name, text.removesuffix("\n").split("\n")] for name, text in parts.items()]
    pages.expect("sources: all", [[name, ["".join(line) for line in some]] for name, some in shown], lines)
    scripts = pages.browser.value(COUNTED)
    pages.expect("sources: scripts", scripts, SCRIPTS)
    pages.expect("sources: console", pages.browser.told(), [])
    short = pages.told(["page", "--text", f"a.c={len(record) + 1}"], record)
    pages.expect("sources: too few bytes", short, (1, b"", b"rvmc: record: Short 0\n"))


def expect_faults(pages):
    """Expects places that aren't there to be told."""
    with open(f"{TOP}/examples/ring.s", "rb") as file:
        record = pages.told(["one", "--source", "--record"], file.read())[1]
    count = len(formats.read_record(record)[1])
    for words in ([f"--from={count + 1}"], [f"--to={count + 1}"]):
        told = pages.told(["page", *words], record)
        pages.expect(str(words), told, (1, b"", f"rvmc: page: PastEnd {count}\n".encode()))
