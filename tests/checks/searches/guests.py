"""Guests beyond the sizes above which a search could say something else, for tests/checks/searched."""

# the numbers of calls, docs/CALLS.md
CALLS = {"EXIT": 0, "PUT": 1, "SEND": 16, "SSEND": 17, "RECV": 18, "ISEND": 19, "ISSEND": 20, "IRECV": 21, "TEST": 22}
CALLS |= {"WAIT": 23, "IPROBE": 24, "PROBE": 25, "MPROBE": 27, "START": 32, "WAITALL": 35}
CALLS |= {"PSEND_INIT": 40, "PRECV_INIT": 41, "PREADY": 42}

ANY = -1

# from sp on: a message, the three words of a status, a text, and a word that is no part of any of them
MESSAGE, STATUS, TEXT, OTHER = -64, -96, -128, -160

END = "end: li a0, 0\n li a7, 0\n ecall\n"


def call(name, *operands, label=""):
    """A call: operands are numbers, registers, or places from sp on, as `(at,)`."""
    lines = []
    for place, operand in enumerate(operands):
        if isinstance(operand, tuple):
            lines.append(f" addi a{place}, sp, {operand[0]}")
        else:
            lines.append(f" {'li' if isinstance(operand, int) else 'mv'} a{place}, {operand}")
    lines += [f" li a7, {CALLS[name]}", f"{label}{':' if label else ''} ecall"]
    return "".join(f"{line}\n" for line in lines)


def send(dest, tag, label="", name="SEND", comm=0):
    return call(name, (MESSAGE,), 8, dest, tag, comm, label=label)


def receive(source, tag, label="", status=False, comm=0):
    return call("RECV", (MESSAGE,), 8, source, tag, comm, (STATUS,) if status else 0, label=label)


def poll(tag=9):
    """A look for a message that nobody sends."""
    return call("IPROBE", ANY, tag, 0, 0)


def loop(name, count, body, register="s0"):
    """Does something so many times."""
    step = f" addi {register}, {register}, -1\n bnez {register}, {name}\n"
    return f" li {register}, {count}\n{name}: nop\n{body}{step}"


def by_rank(bodies, ranks, names=(), harts=1, hart=0):
    """A guest: what this hart of each of these ranks does before it ends; the others end at once. The names are symbols."""
    lines = [f".ranks {ranks}\n", f".harts {harts}\n" if harts > 1 else "", *(f".globl {name}\n" for name in names)]
    lines += ["_start: nop\n", f" li t0, {hart}\n beq a0, t0, it\n j end\nit: nop\n" if harts > 1 else ""]
    # a branch doesn't reach far
    lines += [f" li t0, {rank}\n bne a1, t0, not_{rank}\n j of_{rank}\nnot_{rank}: nop\n" for rank in bodies]
    lines += [" j end\n"] + [f"of_{rank}: nop\n{body} j end\n" for rank, body in bodies.items()]
    return "".join(lines) + END


def digit(at):
    """Writes the source of the last status as a digit, and forgets it."""
    return f" ld t1, {STATUS}(sp)\n addi t1, t1, 48\n sb t1, {TEXT + at}(sp)\n sd zero, {STATUS}(sp)\n li t1, 0\n"


def put(count):
    """Puts out so many digits, and a newline."""
    return f" li t1, 10\n sb t1, {TEXT + count}(sp)\n" + call("PUT", (TEXT,), count + 1)


# Ranks 0 to 6 each send a message from a place of its own. Rank 7 remembers whose the first two are, and takes all.
GATHER = {rank: send(7, 5, f"sent_{rank}") for rank in range(7)}
GATHER[7] = receive(ANY, 5, "take_1", True) + digit(0) + receive(ANY, 5, "take_2", True) + digit(1) + put(2)
GATHER[7] += loop("rest", 5, receive(ANY, 5))
GATHER = by_rank(GATHER, 8, [f"sent_{rank}" for rank in range(7)] + ["take_1", "take_2"])


def polled(count, last, ranks=3, others=None):
    """Ranks 1 and 2 each send a message. Rank 0 asks up to so many times whether one has come, and then does something with a
    code in s0: of how often it asked before and whose message it was, or 999."""
    text = call("IRECV", (MESSAGE,), 8, ANY, 5, 0) + " mv s2, a1\n li s0, 0\nagain: nop\n"
    text += call("TEST", "s2", (STATUS,), label="test")
    text += f" bnez a1, found\n addi s0, s0, 2\n li t0, {2 * count}\n bne s0, t0, again\n li s0, 999\n"
    text += f"gone: nop\n{last}found: ld t1, {STATUS}(sp)\n add s0, s0, t1\n j gone\n"
    bodies = {0: text, 1: send(0, 5, "early"), 2: send(0, 5, "late"), **(others or {})}
    return by_rank(bodies, ranks, ["early", "late", "test"])


# It ends with the code
POLLS = 130
POLLED = polled(POLLS, call("EXIT", "s0"))

# It waits for a message of this tag, and is stuck while rank 4 goes on
STUCK = polled(12, receive(3, "s0"), 5, {4: "on: j on\n"})


def seen(name):
    """Ranks 4 to 6 each send a message, and rank 7 sees one of them, and says whose."""
    bodies = {rank: send(7, 5) for rank in (4, 5, 6)}
    bodies[7] = call(name, ANY, 5, 0, (STATUS,), label="look") + digit(0) + " li a1, 0\n" + put(1)
    return by_rank(bodies, 8, ["look"])


# Rank 0 sends rank 2 messages with 248 tags in another communicator and one more, rank 1 one like that. Rank 2 waits for
# all at once, the last of any source
AT_ONCE = {
    0: loop("give", 248, send(2, "s0", comm=1)) + send(2, 0, "last"),
    1: send(2, 0, "other"),
    2: " addi s1, sp, -2048\n li t1, 8192\n sub s2, sp, t1\n mv s3, s1\n"
    + loop("ask", 248, call("IRECV", (MESSAGE,), 8, 0, "s0", 1) + " sd a1, 0(s3)\n addi s3, s3, 8\n")
    + call("IRECV", (MESSAGE,), 8, ANY, 0, 0)
    + " sd a1, 0(s3)\n"
    + call("WAITALL", "s1", 249, "s2", label="all")
    + f" li t1, {24 * 248}\n add t1, t1, s2\n ld t1, 0(t1)\n addi t1, t1, 48\n sb t1, {TEXT}(sp)\n"
    + put(1),
}
AT_ONCE = ".comm 0, 1, 2\n" + by_rank(AT_ONCE, 3, ["last", "other", "all"])

# Hart 3 of rank 2 takes a message of hart 3 of rank 0 or 1
LAST_HART = {rank: send(2, 5, f"sent_{rank}") for rank in range(2)}
LAST_HART[2] = receive(ANY, 5, "take", True) + digit(0) + put(1)
LAST_HART = by_rank(LAST_HART, 3, ["sent_0", "sent_1", "take"], 4, 3)

# Rank 2 takes a message of rank 0 or 1, at places whose names are as long as names may be
NAMES = [f"place_of_rank_{rank}_in_this_guest".ljust(31, "_") for rank in range(3)]
LONG_NAMES = {rank: send(2, 5, NAMES[rank]) for rank in range(2)}
LONG_NAMES[2] = receive(ANY, 5, NAMES[2], True) + digit(0) + put(1)
LONG_NAMES = by_rank(LONG_NAMES, 3, NAMES)

# Rank 3 takes 2,500 messages of rank 0 in another communicator, and then one of rank 1 or 2; before that each rank counts
# down from 40,000
LATE = {
    0: loop("count_0", 40_000, "") + loop("give", 2_500, send(3, 1, comm=1)),
    1: loop("count_1", 40_000, "") + send(3, 5, "early"),
    2: loop("count_2", 40_000, "") + send(3, 5, "late"),
    3: loop("count_3", 40_000, "")
    + loop("take", 2_500, receive(0, 1, comm=1))
    + receive(ANY, 5, "any", True)
    + digit(0)
    + put(1),
}
LATE = ".comm 0, 1, 2, 3\n" + by_rank(LATE, 4, ["early", "late", "any"])


def counts_on(bodies, harts=1):
    """Each of these ranks counts for ever behind what it does before."""
    bodies = {rank: f"{before}on_{rank}: addi s1, s1, 1\n j on_{rank}\n" for rank, before in bodies.items()}
    return by_rank(bodies, 8, (), harts)


# goes round in 60,002 turns, and in 24 rounds that differ in memory alone
ROUND = "again: nop\n li s1, 30000\ninner: addi s1, s1, -1\n bnez s1, inner\n j again\n"
ROUNDS = f"again: ld t1, {OTHER}(sp)\n addi t1, t1, 1\n li t2, 24\n remu t1, t1, t2\n"
ROUNDS += f" sd t1, {OTHER}(sp)\n li t1, 0\n j again\n"


def shift(ranks):
    """Each of so many ranks sends to the next before it receives from the one before."""
    bodies = {
        rank: send((rank + 1) % ranks, 1, f"give_{rank}") + receive((rank - 1) % ranks, 1, f"take_{rank}")
        for rank in range(ranks)
    }
    return by_rank(bodies, ranks, [f"give_{rank}" for rank in range(ranks)])


def ways(most):
    """Ranks 0 and 1 each poll forty times. Then rank 0 asks up to so many times whether rank 1 has come as far, and then
    each of them sends before it receives: rank 0 at another place for each time that it asked."""
    first = loop("look_0", 40, poll()) + " li s0, 0\nagain: nop\n" + call("IPROBE", 1, 3, 0, 0)
    first += f" bnez a1, found\n addi s0, s0, 1\n li t0, {most}\n bne s0, t0, again\nfound: nop\n" + receive(1, 3)
    first += f" addi a0, sp, {MESSAGE}\n li a1, 8\n li a2, 1\n li a3, 1\n li a4, 0\n li a5, 0\n"
    first += f" li a7, {CALLS['SEND']}\n"
    first += " slli t0, s0, 3\n la t1, gives\n add t1, t1, t0\n jr t1\ngives:\n"
    first += "".join(f"give_{time}: ecall\n j taken\n" for time in range(most + 1)) + "taken: nop\n" + receive(1, 1)
    other = loop("look_1", 40, poll()) + send(0, 3, name="SSEND") + send(0, 1, "give") + receive(0, 1)
    return by_rank({0: first, 1: other}, 2, ["give", *(f"give_{time}" for time in range(most + 1))])


# Rank 7 takes a message of each other rank, and tells each whether it was the first. That one and rank 7 then each send
# before they receive.
CHOSEN = {
    rank: send(7, 5, f"sent_{rank}")
    + receive(7, 7)
    + f" ld t1, {MESSAGE}(sp)\n sd zero, {MESSAGE}(sp)\n beqz t1, end\n"
    + send(7, 6, f"give_{rank}")
    + receive(7, 6)
    for rank in range(7)
}
CHOSEN[7] = (
    receive(ANY, 5, "first", True)
    + f" ld s1, {STATUS}(sp)\n"
    + loop("rest", 6, receive(ANY, 5))
    + f" li s2, 0\n li s3, 7\ntell: xor t1, s1, s2\n seqz t1, t1\n sd t1, {MESSAGE}(sp)\n"
    + send("s2", 7)
    + " addi s2, s2, 1\n bne s2, s3, tell\n"
    + send("s1", 6, "give_7")
    + receive("s1", 6)
)
NAMED = ["first", *(f"sent_{rank}" for rank in range(7)), *(f"give_{rank}" for rank in range(8))]
CHOSEN = by_rank(CHOSEN, 8, NAMED)


def polls(count, behind="", ranks=2, others=None, harts=1):
    """Each of two ranks polls so many times, and then rank 0 does something."""
    bodies = {rank: loop(f"look_{rank}", count, poll()) + (behind if rank == 0 else "") for rank in range(2)}
    return by_rank({**bodies, **(others or {})}, ranks, (), harts)


# Rank 1 polls 40 times and then sends. Rank 0 asks whether its message is there, and ends with how often it asked before. Each
# of six others polls 60 times
ASKED = {0: "again: nop\n" + call("IPROBE", ANY, 5, 0, 0) + " bnez a1, found\n addi s0, s0, 1\n j again\nfound: nop\n"}
ASKED[0] += call("EXIT", "s0")
ASKED |= {rank: loop(f"look_{rank}", 40 if rank == 1 else 60, poll()) for rank in range(1, 8)}
ASKED[1] += send(0, 5)
ASKED = by_rank(ASKED, 8)

# Ranks 0 and 1 poll 35 times and then send. Rank 2 goes on for ever if rank 1's message comes first
SPUN = {rank: loop(f"look_{rank}", 35, poll()) + send(2, 5) for rank in range(2)}
SPUN[2] = receive(ANY, 5, "", True) + f" ld t1, {STATUS}(sp)\n beqz t1, end\non: j on\n"
SPUN = by_rank(SPUN, 3)

# Rank 0 sends, and polls 31 times. Rank 2 receives that once it has a message that rank 1 sends behind 31 polls
HELD_BACK = {
    0: send(2, 1) + loop("look_0", 31, poll()),
    1: loop("look_1", 31, poll()) + send(2, 2),
    2: receive(1, 2) + receive(0, 1),
}
HELD_BACK = by_rank(HELD_BACK, 3)

# Rank 7 takes a message of each other rank, and remembers the order of the first four in its memory
ORDERED = {rank: send(7, 5) for rank in range(7)}
ORDERED[7] = "".join(
    receive(ANY, 5, "", True) + f" ld t1, {STATUS}(sp)\n sd t1, {OTHER - 8 * at}(sp)\n sd zero, {STATUS}(sp)\n li t1, 0\n"
    for at in range(4)
) + loop("rest", 3, receive(ANY, 5))
ORDERED = by_rank(ORDERED, 8)


def raced(before, receiver="", name="SEND", others=None):
    """Ranks 1 to 4 each send a message to rank 0, which takes them in any order; rank 0, or each of the five, does something
    before. Beside them stand rank 5 and perhaps two others."""
    bodies = {rank: (before(rank) if callable(before) else "") + send(0, 5, name=name) for rank in range(1, 5)}
    bodies[0] = (before(0) if callable(before) else before) + loop("rest", 4, receive(ANY, 5))
    return by_rank({**bodies, 5: receiver, **(others or {})}, 8 if others else 6)


def written(rank):
    """Writes a word into each of 200 pages."""
    step = " sd s0, 0(s1)\n lui t1, 1\n sub s1, s1, t1\n addi s0, s0, -1\n"
    return f" li s0, 200\n addi s1, sp, -1024\nwrite_{rank}: nop\n{step} bnez s0, write_{rank}\n li s1, 0\n li t1, 0\n"


def counted(count, rank):
    """Polls so often, and counts that in memory alone."""
    text = f"count_{rank}: nop\n{poll()} ld t1, {OTHER}(sp)\n addi t1, t1, 1\n sd t1, {OTHER}(sp)\n"
    return text + f" addi t1, t1, -{count}\n beqz t1, end\n li t1, 0\n j count_{rank}\n"


# Rank 5 sends itself 600 messages and takes them. Then it takes one of rank 6 and one of rank 7, in any order, sends itself
# one more, whose tag says which came first, and takes that. Then ranks 1 to 4 each send rank 0 a message
HISTORY = loop("own", 600, send(5, 6, comm=1)) + loop("take", 600, receive(5, 6, comm=1))
HISTORY += receive(ANY, 5, "", True) + f" ld s1, {STATUS}(sp)\n sd zero, {STATUS}(sp)\n" + receive(ANY, 5)
HISTORY += send(5, "s1", comm=1) + receive(5, "s1", comm=1) + " li s1, 0\n"
HISTORY += "".join(send(rank, 8, comm=1) for rank in range(1, 5))
HISTORY = {rank: receive(5, 8, comm=1) + send(0, 5) for rank in range(1, 5)} | {5: HISTORY, 6: send(5, 5), 7: send(5, 5)}
HISTORY = ".comm 0, 1, 2, 3, 4, 5, 6, 7\n" + by_rank({0: loop("rest", 4, receive(ANY, 5)), **HISTORY}, 8)

# all registers but those in which a call has its number and arguments, and the stack pointer
REGISTERS = ["ra", "gp", "tp", *(f"t{number}" for number in range(7)), *(f"s{number}" for number in range(12))]

# a link from each of six ranks to each other one
LINKS = "".join(f".link {rank}, {other}\n" for rank in range(6) for other in range(6) if other != rank)

LAST_LINKS = ".link 6, 7\n.link 7, 6\n"


def linked(rank, among=range(6)):
    """Moves a partition to each other one of these ranks, and takes one from each."""
    others = [other for other in among if other != rank]
    text = "".join(call("PSEND_INIT", (MESSAGE,), 1, 8, other, 1, 0) for other in others)
    text += "".join(call("PRECV_INIT", (OTHER,), 1, 8, other, 1, 0) for other in others)
    # among six the handles are 1 to 5 and 6 to 10
    text += loop(f"start_{rank}", 2 * len(others), call("START", "s0"))
    text += loop(f"ready_{rank}", len(others), call("PREADY", "s0", 0))
    return text + loop(f"wait_{rank}", 2 * len(others), call("WAIT", "s0", 0)) + " li a1, 0\n"


def to_each(name, body):
    """Does something with each of eight ranks, whose number is in s2."""
    return f" li s2, 0\n li s3, 8\n{name}: nop\n{body} addi s2, s2, 1\n bne s2, s3, {name}\n"


# Each of eight ranks sends to all, itself too, in two communicators, and then takes what they sent
ALL_TO_ALL = {
    rank: "".join(to_each(f"give_{rank}_{comm}", send("s2", 1, comm=comm)) for comm in range(2))
    + "".join(to_each(f"take_{rank}_{comm}", receive("s2", 1, comm=comm)) for comm in range(2))
    for rank in range(8)
}
ALL_TO_ALL = ".comm 0, 1, 2, 3, 4, 5, 6, 7\n" + by_rank(ALL_TO_ALL, 8)

# seven more communicators of eight ranks
COMMS = "".join(f".comm {', '.join(map(str, range(8)))}\n" for _ in range(7))


def hanging(last, count):
    """The last rank polls so often, and then asks for the second message of rank 0 until it is there. It takes the first one
    behind that, and then sends to each rank between them, which asks for that until it is there."""
    bodies = {0: send(last, 1, "give") + send(last, 2)}
    for rank in range(1, last):
        bodies[rank] = f"on_{rank}: nop\n" + call("IPROBE", last, 3, 0, 0, label=f"ask_{rank}")
        bodies[rank] += f" beqz a1, on_{rank}\n" + receive(last, 3)
    bodies[last] = loop("before", count, poll()) + "again: nop\n" + call("IPROBE", ANY, 2, 0, 0, label="look")
    bodies[last] += " beqz a1, again\n" + receive(0, 1) + receive(0, 2)
    bodies[last] += "".join(send(rank, 3) for rank in range(1, last))
    return by_rank(bodies, last + 1, ["give", "look", *(f"ask_{rank}" for rank in range(1, last))])
