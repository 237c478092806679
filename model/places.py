"""The places of a program as people write them, as docs/DEBUGGING.md ("Places") has them."""

import re

# `farm.c.46` and `farm.c.46.2`: a file with an extension of 1 to 3 letters, the line, and how often it was come to
LINE = re.compile(r"(.*\.[A-Za-z]{1,3})\.([1-9][0-9]*)(\.[1-9][0-9]*)?", re.DOTALL)


def nearest(symbols, at):
    """The symbol at the address or nearest before it, the first of several."""
    found = None
    for address, name in symbols:
        if address <= at and (found is None or address > found[0]):
            found = (address, name)
    return found


def line(name):
    """The file and the number of the line that a symbol is of, or None."""
    found = LINE.fullmatch(name)
    return found and found.group(1, 2)


def near(image, at):
    """The line that an address belongs to, as a file and a number, and the nearest label; each may be missing."""
    named = [(address, name.decode()) for address, name in image.symbols]
    label = nearest([one for one in named if not line(one[1])], at)
    begun = nearest([one for one in named if line(one[1])], at)
    if begun and (not label or label[0] <= begun[0]):
        return line(begun[1]), label
    return None, label


def name(image, at):
    """`farm.c:46 in worker`, `worker+0x24`, or `0x344`."""
    found, label = near(image, at)
    if found:
        return ":".join(found) + (f" in {label[1]}" if label else "")
    return f"{label[1]}+{at - label[0]:#x}" if label else f"{at:#x}"


def place(image, at):
    """The same with the address behind it, unless that is its only name."""
    text = name(image, at)
    return text if text == f"{at:#x}" else f"{text} [{at:#x}]"


def has_line(image, at):
    """Whether the address is in the program's own sources."""
    return near(image, at)[0] is not None


def function(image, at):
    """The label that an address is behind, if there is one."""
    label = near(image, at)[1]
    return label and label[1]
