"""Streams of packets of GDB's remote serial protocol: what stands in one, and what shape its answers have, as GDB's manual
('Overview' of the remote protocol) and docs/DECISIONS.md ("Packets of gdb") have them. And streams drawn at random."""

import re

# how long a packet's text may be
MOST = 16_384

# payloads that a client sends, and some that are none of the protocol's
PAYLOADS = [
    b"qSupported:multiprocess+;swbreak+;hwbreak+", b"?", b"Hg0", b"Hc-1", b"Hg1", b"Hg9", b"T1", b"T0", b"qC", b"qfThreadInfo",
    b"qsThreadInfo", b"qThreadExtraInfo,1", b"qThreadExtraInfo,7", b"g", b"p0", b"p20", b"p21", b"m0,8", b"m0,fff",
    b"mffffffffffffffff,8", b"x0,4", b"vCont?", b"vCont;s:1", b"vCont;c", b"c", b"s", b"bs", b"bc", b"Z0,8,4", b"z0,8,4",
    b"Z2,800,8", b"Z3,800,4", b"Z4,800,1", b"z2,800,8", b"Z1,0,4", b"G00", b"P0=00", b"M0,1:00", b"X0,0:",
    b"qXfer:features:read:target.xml:0,100", b"qXfer:features:read:target.xml:100,ffff", b"qRcmd,706c616365",
    b"qRcmd,676f2033", b"qRcmd,776879", b"qRcmd,68656c70", b"qRcmd,0",
    # sent, got, and last-write of an address, of a symbol, and of an address that no memory has
    b"qRcmd,73656e74", b"qRcmd,676f74", b"qRcmd,6c6173742d77726974652032303438", b"qRcmd,6c6173742d777269746520636f756e74", b"qRcmd,6c6173742d7772697465203939393939393939",
    b"qXfer:threads:read::0,100", b"qXfer:threads:read::100,ffff", b"vMustReplyEmpty", b"qOffsets", b"", b"!",
]  # fmt: skip


def packet(text):
    """A packet with the sum of its text."""
    return b"$" + text + b"#" + b"%02x" % (sum(text) % 256)


def payload_of(text):
    """What a text carries, with its escapes and runs undone, or None where it carries nothing."""
    found, at = bytearray(), 0
    while at < len(text):
        byte = text[at]
        if byte == ord("}"):
            if at + 1 == len(text):
                return None
            found.append(text[at + 1] ^ 0x20)
            at += 2
        elif byte == ord("*"):
            return None if at + 1 == len(text) or not found else bytes(found) + b"*"
        else:
            found.append(byte)
            at += 1
    return bytes(found)


def messages(stream, arrivals=False):
    """What a stream holds, in order: `again`, `wrong`, or a packet's payload, and with `arrivals` also `arrived`. A `$` within
    a packet begins another."""
    at, found = 0, []
    while at < len(stream):
        if stream[at] != ord("$"):
            if stream[at] == ord("-"):
                found.append("again")
            if stream[at] == ord("+") and arrivals:
                found.append("arrived")
            at += 1
            continue
        end = re.compile(rb"[$#]").search(stream, at + 1)
        if end is None:
            break
        text, at = stream[at + 1 : end.start()], end.start()
        if end.group() == b"$":
            continue
        at += 1
        if len(text) > MOST:
            continue
        digits, at = stream[at : at + 2], at + 2
        if len(digits) < 2:
            break
        payload = payload_of(text)
        is_right = re.fullmatch(rb"[0-9a-fA-F]{2}", digits) and int(digits, 16) == sum(text) % 256
        found.append(payload if is_right and payload is not None else "wrong")
    return found


def wrong(stream, answers):
    """What is wrong with the answers to a stream, or None: each packet is acknowledged and answered by one packet with a right
    sum, in order, what is no packet by nothing, and nothing stands behind the answer to `D` or in place of one to `k`. While
    packets are acknowledged, one that repeats the one before it, with no `+` between them, isn't answered once more."""
    at, acknowledged, last, unread = 0, True, b"", None
    for message in messages(stream, arrivals=True):
        if message == "arrived":
            unread = None
            continue
        if message == "again":
            if not answers.startswith(last, at):
                return f"at {at}: not the last packet again"
            at += len(last)
            continue
        sign = b"-" if message == "wrong" else b"+"
        if acknowledged:
            if not answers.startswith(sign, at):
                return f"at {at}: {answers[at : at + 20]!r} in place of {sign!r} for {message[:40]!r}"
            at += 1
        if message == "wrong" or (acknowledged and message == unread):
            continue
        unread = message
        if message == b"k":
            break
        found = re.compile(rb"\$([^$#]*)#([0-9a-f]{2})").match(answers, at)
        if not found or int(found.group(2), 16) != sum(found.group(1)) % 256:
            return f"at {at}: {answers[at : at + 40]!r} is no answer to {message[:40]!r}"
        at, last = found.end(), found.group()
        if message == b"QStartNoAckMode":
            acknowledged = False
        if message == b"D":
            break
    return None if at == len(answers) else f"{answers[at : at + 40]!r} behind the last answer"


# ---- the other end of a message

CARRIED = re.compile(r"(claimed, )?tag (\d+), (\d+) bytes|link (\d+) partition (\d+) phase \d+")


def by(spot):
    """A step, as `monitor` tells it."""
    return f" at {spot.place} by rank {spot.rank} hart {spot.hart}"


def other_end(arrows, steps, who, place, word):
    """The first line that `monitor sent` or `monitor got` prints for a rank's hart at a place, by the arrows of the record: that of
    the first message that it gets, or sends, from its last turn but one on."""
    turns = [n for n in range(place) if (steps[n].rank, steps[n].hart) == who]
    begin = turns[-2] if len(turns) > 1 else 0
    found = []
    for start, end, what in arrows:
        claimed, tag, count, link, part = CARRIED.fullmatch(what).groups()
        own = end if word == "sent" else start
        if own is None or (own.rank, own.hart) != who or own.place < begin or (claimed and word == "got"):
            continue
        if link is not None:
            first, last = f"partition {part} of link {link}, made ready", "taken"
        else:
            first, last = f"message of {count} bytes, tag {tag}, sent", "claimed" if claimed else "got"
        found.append((own.place, f"{first}{by(start)}, {last}{' by nobody' if end is None else by(end)}"))
    if not found:
        return f"rank {who[0]} hart {who[1]} {'gets' if word == 'sent' else 'sends'} nothing from here on"
    return min(found, key=lambda one: one[0])[1]


class Streams:
    """Streams drawn at random."""

    def __init__(self, random):
        self.random = random

    def payload(self):
        """A payload, mostly of the protocol, mostly as it is."""
        text = bytearray(self.random.choice(PAYLOADS))
        if self.random.randrange(4) == 0:
            at = self.random.randrange(len(text) + 1)
            text[at : at + self.random.randrange(2)] = self.random.randbytes(self.random.randrange(3))
        # these end a session, or write nothing: they come where they are meant to
        return bytes(text).replace(b"$", b"").replace(b"#", b"").replace(b"}", b"").replace(b"*", b"")

    def piece(self):
        """Some bytes of a stream: a packet, or what is nearly one."""
        kind = self.random.randrange(24)
        whole = packet(self.payload())
        if kind == 0:
            return self.random.randbytes(self.random.randrange(40))
        if kind == 1:
            return whole[: self.random.randrange(len(whole))]
        if kind == 2:
            return whole[:-2] + b"%02X" % self.random.randrange(256)
        if kind == 3:
            return self.random.choice([b"+", b"-", b"\x03", b"+-+", packet(b"QStartNoAckMode")])
        if kind == 4:
            return packet(b"m0," + b"0" * self.random.choice([10, MOST - 4, MOST - 3, MOST - 2, 40_000]) + b"8")
        return whole

    def stream(self, count):
        """A stream of so many pieces."""
        ends = [packet(b"D"), packet(b"k"), b""]
        return b"".join(self.piece() for _ in range(count)) + self.random.choice(ends) + self.random.choice([b"", b"$g#67"])
