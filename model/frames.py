"""The calls that led to where a hart is, as docs/DEBUGGING.md ("Inside a library") tells them."""

import places
import ways

# the calls that are told of a hart
MOST = 64


def pointed(memory, pointer):
    """The frame that ends here: its end, the return address and the caller's frame pointer. Else nothing."""
    if pointer % 8 or pointer < 16 or not memory.can_read(pointer - 16, 16):
        return None
    return pointer, memory.word(pointer - 8), memory.word(pointer - 16)


def own(image, hart, memory):
    """The frame of the function that a hart is in."""
    keeps = ways.kept_pointer(image, memory, hart.pc)
    if keeps == ways.WITHOUT:
        is_text = hart.pc + 4 <= memory.text
        frame = ways.out(memory, hart.regs, hart.pc) if is_text else ways.end(memory, hart.regs)
        if frame:
            return frame
    frame = pointed(memory, hart.regs[ways.S0])
    if frame and (keeps == ways.LEAF or (keeps == ways.UNKNOWN and frame[1] > frame[0])):
        # a function that calls none keeps its return address in its register
        return frame[0], hart.regs[ways.RA], frame[1]
    return frame


def above(image, memory, frame):
    """The frame of the caller."""
    end, back, s0 = frame
    found = None
    if ways.kept_pointer(image, memory, max(back - 4, 0)) == ways.WITHOUT:
        regs = [0] * 32
        regs[ways.RA], regs[ways.SP], regs[ways.S0] = back, end, s0
        found = ways.out(memory, regs, back)
    found = found or pointed(memory, s0)
    return found if found and found[0] > end else None


def callers(image, hart, memory):
    """Where the functions were called that a hart is in, the innermost first."""
    found, frame = [], own(image, hart, memory)
    while len(found) < MOST and frame:
        found.append(max(frame[1] - 4, 0))
        frame = above(image, memory, frame)
    return found


def calls(image, hart, memory):
    """The calls as text, each for itself."""
    return [f"called from {places.name(image, at)}" for at in callers(image, hart, memory)]


def own_call(image, hart, memory):
    """Of a hart in the library: where the program itself called it, and an address in what it called. Else nothing."""
    inner = hart.pc
    if places.has_line(image, inner):
        return None
    for at in callers(image, hart, memory):
        if places.has_line(image, at):
            return at, inner
        inner = at
    return None
