"""What is told behind the first line of a fault, or beside a report, as docs/DEBUGGING.md lists it."""

import re

import assembler
import debugger
import formats
import places

# a hint's line: printable bytes, and what stands in a string of the source as it is, a tab or a carriage return
LINE = re.compile(rb"hint: [ -~\t\r]+\n")

# what a source is told to be given to, by what is wanted in its place
REMEDIES = {
    "run": ("use --source", "a source wants --source"),
    "listed": ("rvmc asm | rvmc dis", "of a source, rvmc asm | rvmc dis"),
    "rewritten": ("rvmc asm reads it, without --from", "a source wants no --from"),
    "record": ("rvmc one --source --record makes a record of its run", "rvmc one --record writes a record"),
}

NAMES = {
    "source": "a source",
    "run": "an image, or with --source a source,",
    "listed": "an image",
    "rewritten": "an image",
    "record": "a record",
    "told": "what rvmc explore --from writes",
}


def parted(error):
    """Returns what stands on standard error before a hint, and the hint's line."""
    at = error.find(b"hint: ")
    return (error, b"") if at < 0 else (error[:at], error[at:])


def wanted_by(words):
    """Returns what a command takes."""
    if "--join" in words:
        return "told"
    if not words or "--source" in words or (words[0] == "asm" and "--from" not in words):
        return "source"
    return {"asm": "rewritten", "dis": "listed", "one": "run", "run": "run"}.get(words[0], "record")


def option(words, name):
    """Returns the numbers of an option, or None where it isn't there."""
    for at, word in enumerate(words):
        if word == name:
            return [int(number) for number in words[at + 1].split(",")]
        if word.startswith(name + "="):
            return [int(number) for number in word.removeprefix(name + "=").split(",")]
    return None


def is_source(given):
    """Whether the assembler makes an image of the bytes."""
    try:
        assembler.assembled(given)
    except assembler.Fault:
        return False
    return True


def of_plans(words, given):
    """Returns what is wrong with a plan or an order."""
    image = assembler.assembled(given) if wanted_by(words) == "source" else formats.read_image(given)
    plan, order = option(words, "--plan"), option(words, "--order")
    if plan is not None and max(plan) >= image.harts:
        if image.harts == 1:
            return "1 hart: --plan must name 0 and no other"
        return f"{image.harts} harts: --plan must name harts from 0 to {image.harts - 1}"
    if order is not None and set(order) != set(range(image.ranks)):
        if image.ranks == 1:
            return "1 rank: --order must name 0 and no other"
        return f"{image.ranks} ranks: --order must name each of 0 to {image.ranks - 1}"
    return ""


def of_content(wanted, given):
    """Returns what stands in an input of another kind than is wanted."""
    if not given:
        return f"the input is empty: {NAMES[wanted]} is wanted"
    if given.startswith(b"RVMC"):
        return "this is an image: rvmc one reads it" if wanted in ("source", "record", "told") else ""
    if given.startswith(b"RVMR"):
        return "" if wanted == "record" else "this is a record: rvmc report, list and check read it"
    if given.startswith(b"\x7fELF"):
        return "this is an ELF file: rvmc runs images, which rvmc-cc makes from C"
    if re.search(rb"(?m)^#include", given) and not is_source(given):
        return "this is C: rvmc-mpi run -n 4 FILE compiles it and runs it"
    if wanted in ("source", "told") or any(byte not in b"\t\n\r" and not 32 <= byte <= 126 for byte in given):
        return ""
    if is_source(given):
        return f"this is an assembler source: {REMEDIES[wanted][0]}"
    return f"this looks like text: {REMEDIES[wanted][1]}"


def of_record(given, first):
    """Returns what is told of bytes that end too early for a record, or that begin as one of another version does."""
    if first == b"rvmc: record: Magic\n":
        return "a record begins with RVMR and version 2" if given.startswith(b"RVMR") else ""
    if not first.startswith(b"rvmc: record: Short "):
        return ""
    least = 20
    if len(given) >= 12:
        least += int.from_bytes(given[8:12], "little")
        steps = given[least - 8 : least]
        least += 16 * int.from_bytes(steps, "little") if len(steps) == 8 else 0
    return f"a record that begins so has {least} bytes or more" if least > len(given) else ""


def near(one, other):
    """Whether two names differ by one slip."""
    for at, (a, b) in enumerate(zip(one, other)):
        if a != b:
            break
    else:
        return abs(len(one) - len(other)) == 1
    one, other = one[at:], other[at:]
    swapped = one[:2] == other[1::-1] and len(one) > 1 and one[2:] == other[2:]
    return one[1:] == other[1:] or one[1:] == other or one == other[1:] or swapped


def of_symbols(words, given):
    """Returns which name of the words of `debug` is no symbol, or which line of theirs has no code."""
    image, _ = formats.read_record(given)
    symbols = [name for _, name in image.symbols]
    lines = [line for line in (places.line(name.decode()) for name in symbols) if line]
    for word in words[1:]:
        kind, values = debugger.meaning(word) or ("", [])
        at = values[{"break": 2, "bytes": 1}[kind]] if kind in ("break", "bytes") else 0
        if isinstance(at, str) and at.encode() not in symbols:
            meant = [symbol for symbol in symbols if near(symbol, at.encode())]
            behind = f"; is {meant[0].decode()} meant?" if meant else ""
            return f"the image has no symbol {at}{behind}"
        if isinstance(at, tuple) and at not in lines:
            later = [int(number) for file, number in lines if file == at[0] and int(number) > int(at[1])]
            behind = f"; the next line with code is {at[0]}:{min(later)}" if later else ""
            return f"the image has no code of {':'.join(at)}{behind}"
    return ""


def of_budget(words, out):
    """Returns how a run that was cut short by its budget goes further, or "" where it can't, or isn't one."""
    command = words[0] if words else "one"
    is_cut = out.startswith(b"rank 0 output ") and b" stop budget turns " in out
    if command not in ("one", "run") or not is_cut or b" trapped " in out or b"\ndeadlock: " in out:
        return ""
    budget = (option(words, "--budget") or [1_000_000])[0]
    return f"rvmc {command} --budget {min(16 * budget, 16_777_216)} goes further"


def of_report(words, out):
    """Returns what is told beside the report of a run that was cut short while a hart waited."""
    waits = out.startswith(b"rank 0 output ") and b" waiting at 0x" in out and b" stop budget turns " in out
    # with --why or --frames, and where --until-stuck ended the run, it stands behind the report what each hart waits for
    asked = {"--why", "--frames"} & set(words)
    alone = not words or words[0] in ("one", "run") and not asked and b" waits at 0x" not in out
    larger = of_budget(words, out)
    if alone and waits:
        return "a hart waits; --why says for what" + (f", and {larger}" if larger else "")
    return f"a rank used up its budget; {larger}" if larger else ""


def meant(words, given, first, out):
    """Returns the hint's text, "" where there is none, or None where it is one of the many of a source's fault."""
    if first == b"rvmc: debug: NoSymbol\n":
        return of_symbols(words, given)
    if first.startswith(b"rvmc: draw: TooMany "):
        return "a picture has at most 5000 marks: --from and --to draw a part of the record"
    if first == b"rvmc: plans\n":
        return of_plans(words, given)
    if first == b"rvmc: explore: NotAText 1\n":
        return of_content(wanted_by(words), given)
    if first.startswith((b"rvmc: image: ", b"rvmc: record: ", b"rvmc: line ")):
        content = of_content(wanted_by(words), given)
        return content or (None if first.startswith(b"rvmc: line ") else of_record(given, first))
    # whether a budget cut short the run of a record doesn't stand in it
    if not first and out.startswith(b"RVMR"):
        return None
    return "" if first else of_report(words, out)


def is_right(words, given, first, hint, out=b""):
    """Whether a hint is the one that is meant behind the first line, or beside what stands on standard output."""
    text = meant(words, given, first, out)
    if text is None:
        return not hint or LINE.fullmatch(hint) is not None
    return hint == (f"hint: {text}\n".encode() if text else b"")
