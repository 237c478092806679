"""A rank, its calls and its turns, as docs/CALLS.md and docs/CLUSTER.md have them."""

import formats
from formats import FREED, HELD, HUB, IDLE, LOCAL, MISS, PLAIN, READY, TAKE
from hub import DONE, NOT_YET
from machine import ENDED, RUNNING, WAITING, WORD, Hart, Memory, is_at_call, signed, step

OK, BAD_BUFFER, BAD_COUNT, BAD_TAG, BAD_RANK, BAD_COMM, BAD_REQUEST, TRUNCATED, FULL = range(9)
BAD_PARTITION, NO_CHANNEL, SHAPE, ACTIVE, BAD_CALL, BAD_MESSAGE, ALREADY_READY, NOT_ACTIVE = range(9, 17)

ANY, NULL = -1, -2
MOST_TAG, MOST_COUNT, MOST_OUTPUT, MOST_HANDLES = 32_767, 4_096, 1_048_576, 255
MOST_CALLS = 1_048_576
MESSAGE_NO_PROC = WORD - 2

EMPTY = (-1, -1, 0)
OF_NULL = (-2, -1, 0)

# what a request is
SEND, RECV, PSEND, PRECV = "send", "receive", "partitioned send", "partitioned receive"


class Refused(Exception):
    """A call that a check refuses, with its code."""

    def __init__(self, code):
        super().__init__(code)
        self.code = code


class Stop(Exception):
    """Why a rank stops before a turn."""


def check(holds, code):
    """Makes a check of a call."""
    if not holds:
        raise Refused(code)


class Request:
    """An open request."""

    def __init__(self, kind, transfer, persistent):
        self.kind, self.transfer, self.persistent = kind, transfer, persistent
        # an ordinary request is active from its call until it completes
        self.active = not persistent
        # the post that is still asked for, or None where nothing is
        self.post = None
        # the post of a standard send that is under way, of which nobody is asked, or None
        self.sent = None
        # of a partitioned request: its side
        self.side = None

    def is_partitioned(self):
        """Whether it is one side of a partitioned transfer."""
        return self.kind in (PSEND, PRECV)


class Transfer:
    """What a call moves: a buffer, a count or a capacity, the other's position, a tag and a communicator."""

    def __init__(self, at, count, peer, tag, comm, parts=None):
        self.at, self.count, self.peer, self.tag, self.comm, self.parts = at, count, peer, tag, comm, parts


class Side:
    """A rank's side of a link in its phase."""

    def __init__(self, link, parts, size):
        self.link, self.parts, self.size = link, parts, size
        # of a sender: what is ready, and how many, from the lowest on, are known to be taken; of a receiver: the
        # sender's cut, and which boxes are taken
        self.ready, self.freed = set(), 0
        self.cut, self.taken = None, set()

    def begin(self):
        """Begins a phase."""
        self.ready, self.freed, self.taken = set(), 0, set()

    def boxes_of(self, part):
        """The boxes that a partition of the receiver overlaps."""
        count, size = self.cut
        low, high = part * self.size, (part + 1) * self.size
        return [box for box in range(count) if box * size < high and low < (box + 1) * size]

    def has_all(self):
        """Whether all boxes are taken."""
        return self.cut is not None and len(self.taken) == self.cut[0]


class Box:
    """A box: the bytes in it or None, and its stamp."""

    def __init__(self):
        self.text, self.stamp = None, 0


class Cluster:
    """Ranks, the hub, and 16 boxes a link."""

    def __init__(self, image):
        self.image = image
        self.hub = None
        self.boxes = [[Box() for _ in range(16)] for _ in image.links]
        self.width = 64 if image.version == 1 else 128
        self.comms = [list(range(image.ranks)), *image.comms]
        self.ranks = [Rank(self, number) for number in range(image.ranks)]


class Rank:
    """A rank as it runs. `turn` gives a hart a turn and returns the step."""

    def __init__(self, cluster, number):
        image = cluster.image
        self.cluster, self.number = cluster, number
        self.memory = Memory(image)
        self.harts = [Hart(hart, number, image) for hart in range(image.harts)]
        self.requests = {}
        self.out = bytearray()
        self.clock = 0
        self.turns = self.calls = 0
        self.most_calls = MOST_CALLS
        # a look may miss what is there, and does where this says so
        self.must_miss = False
        self.hart = None
        self.event = None

    # ---- events

    def alone(self, kind):
        """An event that meets nobody."""
        self.event = (kind, self.clock + 1, b"")

    def ask(self, name, *arguments):
        """A call of the hub: its reply."""
        if self.calls >= self.most_calls:
            raise Stop("calls")
        self.calls += 1
        hub = self.cluster.hub
        reply = getattr(hub, name)(self.number, *arguments)
        hub.clock = max(self.clock, hub.clock) + 1
        self.event = (HUB, hub.clock, reply)
        return reply

    def box(self, side, number):
        """A box of a link."""
        return self.cluster.boxes[side.link][number]

    def turn(self, number):
        """Gives a hart a turn."""
        hart = self.hart = self.harts[number]
        self.event = None
        if hart.is_stopped():
            self.alone(IDLE)
        elif hart.mode == WAITING and hart.why is not None:
            self.poll(hart)
        elif hart.mode == WAITING or is_at_call(hart, self.memory):
            self.call(hart)
        else:
            self.alone(PLAIN)
            step(hart, self.memory)
        kind, stamp, reply = self.event
        self.clock = stamp
        self.turns += 1
        return formats.Step(self.number, number, stamp, kind, reply)

    def told(self):
        """What a report says of the rank, without why it stopped."""
        front = b"rank %d output %d\n%s\n" % (self.number, len(self.out), bytes(self.out))
        lines = (f"rank {self.number} hart {number} {hart.told()}\n" for number, hart in enumerate(self.harts))
        return front + "".join(lines).encode()

    # ---- how a call ends

    def back(self, code=OK, value=0):
        """Ends a call with a code and a1."""
        hart = self.hart
        hart.regs[10], hart.regs[11] = code, value % WORD
        hart.pc = (hart.pc + 4) % WORD
        hart.mode, hart.why = RUNNING, None

    def wait(self, post=None):
        """Leaves the hart waiting, on a post or to make its call anew."""
        self.hart.mode, self.hart.why = WAITING, post

    def call(self, hart):
        """Makes a call."""
        row = ROWS.get(hart.regs[17])
        try:
            check(row is not None, BAD_CALL)
            row(self, *hart.regs[10:16])
        except Refused as refusal:
            self.alone(LOCAL)
            self.back(refusal.code)

    def write_status(self, at, status):
        """Writes a status, where one is wanted."""
        if at:
            self.memory.write(at, b"".join((word % WORD).to_bytes(8, "little") for word in status))

    # ---- checks

    def members(self, comm):
        """The ranks of a communicator of which this is one."""
        comms = self.cluster.comms
        check(comm < len(comms) and self.number in comms[comm], BAD_COMM)
        return comms[comm]

    def check_peer(self, comm, peer, tag, extra_ranks, extra_tags):
        """Checks a communicator, a position and a tag."""
        members = self.members(comm)
        check(0 <= signed(peer) < len(members) or signed(peer) in extra_ranks, BAD_RANK)
        check(0 <= signed(tag) <= MOST_TAG or signed(tag) in extra_tags, BAD_TAG)

    def check_status(self, at):
        """Checks where a status goes."""
        check(at == 0 or self.memory.can_write(at, 24), BAD_BUFFER)

    def free_handle(self):
        """The lowest handle that is free."""
        free = next((handle for handle in range(1, MOST_HANDLES + 1) if handle not in self.requests), None)
        check(free is not None, FULL)
        return free

    def check_send(self, at, count, dest, tag, comm):
        """The checks of a send."""
        self.check_peer(comm, dest, tag, (NULL,), ())
        check(count <= MOST_COUNT, BAD_COUNT)
        check(self.memory.can_read(at, count), BAD_BUFFER)

    def check_recv(self, at, cap, source, tag, comm, status=0):
        """The checks of a receive."""
        self.check_peer(comm, source, tag, (ANY, NULL), (ANY,))
        check(cap <= MOST_COUNT, BAD_COUNT)
        check(self.memory.can_write(at, cap), BAD_BUFFER)
        self.check_status(status)

    def check_probe(self, source, tag, comm, status):
        """The checks of a probe."""
        self.check_peer(comm, source, tag, (ANY, NULL), (ANY,))
        self.check_status(status)

    def request(self, handle):
        """The open request of a handle."""
        check(handle in self.requests, BAD_REQUEST)
        return self.requests[handle]

    def world(self, comm, position):
        """The rank at a position of a communicator, None for any."""
        return None if signed(position) == ANY else self.cluster.comms[comm][position]

    def position(self, comm, rank):
        """A rank's position in a communicator."""
        return self.cluster.comms[comm].index(rank)

    # ---- the rank's own calls

    def exit(self, code, *_):
        """EXIT."""
        self.alone(LOCAL)
        self.hart.stop(ENDED, code)

    def put(self, at, count, *_):
        """PUT."""
        check(count <= MOST_COUNT, BAD_COUNT)
        check(self.memory.can_read(at, count), BAD_BUFFER)
        check(len(self.out) + count <= MOST_OUTPUT, FULL)
        self.alone(LOCAL)
        self.out += self.memory.read(at, count)
        self.back()

    def tell_rank(self, comm, *_):
        """RANK."""
        members = self.members(comm)
        self.alone(LOCAL)
        self.back(OK, members.index(self.number))

    def tell_size(self, comm, *_):
        """SIZE."""
        members = self.members(comm)
        self.alone(LOCAL)
        self.back(OK, len(members))

    def tell_hart(self, *_):
        """HART."""
        self.alone(LOCAL)
        self.back(OK, self.harts.index(self.hart))

    # ---- sends and receives that end themselves

    def ask_send(self, transfer, sync):
        """Asks the hub for a send of what stands in the buffer."""
        text = self.memory.read(transfer.at, transfer.count)
        dest = self.world(transfer.comm, transfer.peer)
        return self.ask("send", sync, transfer.comm, dest, transfer.tag, text)

    def send_with(self, sync, at, count, dest, tag, comm):
        """SEND and SSEND."""
        self.check_send(at, count, dest, tag, comm)
        if signed(dest) == NULL:
            self.alone(LOCAL)
            return self.back()
        reply = self.ask_send(Transfer(at, count, dest, tag, comm), sync)
        if reply[0] == 0:
            return self.back(reply[1])
        return self.back() if reply[9] else self.wait(int.from_bytes(reply[1:9], "little"))

    def send(self, at, count, dest, tag, comm, *_):
        """SEND."""
        self.send_with(False, at, count, dest, tag, comm)

    def ssend(self, at, count, dest, tag, comm, *_):
        """SSEND."""
        self.send_with(True, at, count, dest, tag, comm)

    def ask_recv(self, transfer, now):
        """Asks the hub for a receive."""
        source = self.world(transfer.comm, transfer.peer)
        tag = None if signed(transfer.tag) == ANY else transfer.tag
        return self.ask("recv", now, transfer.comm, source, tag)

    def recv(self, at, cap, source, tag, comm, status):
        """RECV."""
        self.check_recv(at, cap, source, tag, comm, status)
        if signed(source) == NULL:
            self.alone(LOCAL)
            self.write_status(status, OF_NULL)
            return self.back()
        reply = self.ask_recv(Transfer(at, cap, source, tag, comm), True)
        return self.received(reply, at, cap, status)

    def received(self, reply, at, cap, status):
        """Ends RECV or MRECV with a message, or leaves it waiting on its post."""
        if reply[0] == 2:
            told = self.store(reply[1:], at, cap)
            self.write_status(status, told[1])
            return self.back(told[0])
        if reply[0] == 1:
            return self.wait(int.from_bytes(reply[1:9], "little"))
        return self.back(reply[1])

    def store(self, message, at, cap):
        """Writes a message's bytes: the code and the status."""
        comm, source = message[0], message[1]
        tag = int.from_bytes(message[2:4], "little")
        text = message[6:]
        self.memory.write(at, text[:cap])
        code = TRUNCATED if len(text) > cap else OK
        return code, (self.position(comm, source), tag, min(len(text), cap))

    def poll(self, hart):
        """A further turn of a call that waits on its post."""
        number = hart.regs[17]
        if number == 17:
            if self.ask("finished", hart.why) == DONE:
                self.back()
            return
        reply = self.ask("collect", hart.why)
        if reply != NOT_YET:
            at, cap = hart.regs[10:12]
            self.received(reply, at, cap, hart.regs[15 if number == 18 else 13])

    # ---- handles

    def open(self, request):
        """Opens a request at the lowest free handle, which a1 tells."""
        handle = self.free_handle()
        self.requests[handle] = request
        self.back(OK, handle)

    def isend_with(self, sync, at, count, dest, tag, comm):
        """ISEND and ISSEND."""
        self.check_send(at, count, dest, tag, comm)
        self.free_handle()
        transfer = Transfer(at, count, dest, tag, comm)
        request = Request(SEND, transfer, False)
        if signed(dest) == NULL:
            self.alone(LOCAL)
            return self.open(request)
        reply = self.ask_send(transfer, sync)
        if reply[0] == 0:
            return self.back(reply[1])
        number = int.from_bytes(reply[1:9], "little")
        request.post, request.sent = None if reply[9] else number, None if sync else number
        return self.open(request)

    def isend(self, at, count, dest, tag, comm, *_):
        """ISEND."""
        self.isend_with(False, at, count, dest, tag, comm)

    def issend(self, at, count, dest, tag, comm, *_):
        """ISSEND."""
        self.isend_with(True, at, count, dest, tag, comm)

    def irecv(self, at, cap, source, tag, comm, *_):
        """IRECV."""
        self.check_recv(at, cap, source, tag, comm)
        self.free_handle()
        transfer = Transfer(at, cap, source, tag, comm)
        request = Request(RECV, transfer, False)
        if signed(source) == NULL:
            self.alone(LOCAL)
        else:
            request.post = int.from_bytes(self.ask_recv(transfer, False)[1:9], "little")
        return self.open(request)

    @staticmethod
    def ready_status(request):
        """The status of a request that asks nobody."""
        if request is None or not request.active or request.kind == SEND:
            return EMPTY
        return OF_NULL

    def complete(self, handle):
        """Completes a request: a persistent one is inactive then, another gone."""
        request = self.requests.get(handle)
        if request is None:
            return
        if request.persistent:
            request.active, request.post, request.sent = False, None, None
        else:
            del self.requests[handle]

    def check_one(self, handle, status):
        """The checks of TEST and WAIT: the open request, or None."""
        request = None if handle == 0 else self.request(handle)
        self.check_status(status)
        return request

    def try_with(self, waits, handle, status):
        """TEST and WAIT."""
        request = self.check_one(handle, status)
        if request is not None and request.active and request.is_partitioned():
            return self.try_phase(waits, handle, request, status)
        if request is None or not request.active or request.post is None:
            self.alone(LOCAL)
            return self.finish(waits, handle, status, OK, self.ready_status(request))
        if request.kind == SEND:
            if self.ask("finished", request.post) == NOT_YET:
                return self.not_yet(waits)
            return self.finish(waits, handle, status, OK, EMPTY)
        reply = self.ask("collect", request.post)
        if reply == NOT_YET:
            return self.not_yet(waits)
        if reply[0] == 0:
            return self.back(reply[1])
        code, told = self.store(reply[1:], request.transfer.at, request.transfer.count)
        return self.finish(waits, handle, status, code, told)

    def not_yet(self, waits):
        """A try in vain: TEST has flag 0, WAIT makes its call anew."""
        return self.wait() if waits else self.back(OK, 0)

    def finish(self, waits, handle, status, code, told):
        """Ends TEST or WAIT of a request that is complete."""
        self.write_status(status, told)
        self.complete(handle)
        return self.back(code, 0 if waits else 1)

    def test(self, handle, status, *_):
        """TEST."""
        self.try_with(False, handle, status)

    def wait_for(self, handle, status, *_):
        """WAIT."""
        self.try_with(True, handle, status)

    # ---- probes

    def probe_with(self, name, source, tag, comm, status):
        """What the hub says to a probe or a claim."""
        tag = None if signed(tag) == ANY else tag
        reply = self.ask(name, comm, self.world(comm, source), tag)
        if reply == NOT_YET:
            return None
        envelope = reply[-6:]
        told = (self.position(envelope[0], envelope[1]), int.from_bytes(envelope[2:4], "little"))
        self.write_status(status, (*told, int.from_bytes(envelope[4:6], "little")))
        return reply

    def probe_any(self, waits, claims, source, tag, comm, status):
        """The four probes."""
        self.check_probe(source, tag, comm, status)
        if signed(source) == NULL:
            self.alone(LOCAL)
            self.write_status(status, OF_NULL)
            return self.back(OK, MESSAGE_NO_PROC if claims else 0 if waits else 1)
        reply = self.probe_with("claim" if claims else "probe", source, tag, comm, status)
        if reply is None:
            return self.not_yet(waits)
        return self.back(OK, int.from_bytes(reply[1:9], "little") if claims else 0 if waits else 1)

    def iprobe(self, *arguments):
        """IPROBE."""
        self.probe_any(False, False, *arguments[:4])

    def probe(self, *arguments):
        """PROBE."""
        self.probe_any(True, False, *arguments[:4])

    def improbe(self, *arguments):
        """IMPROBE."""
        self.probe_any(False, True, *arguments[:4])

    def mprobe(self, *arguments):
        """MPROBE."""
        self.probe_any(True, True, *arguments[:4])

    def imrecv(self, at, cap, message, *_):
        """IMRECV."""
        check(cap <= MOST_COUNT, BAD_COUNT)
        check(self.memory.can_write(at, cap), BAD_BUFFER)
        self.free_handle()
        request = Request(RECV, Transfer(at, cap, None, None, None), False)
        if message == MESSAGE_NO_PROC:
            self.alone(LOCAL)
            return self.open(request)
        reply = self.ask("claimed", False, message)
        if reply[0] == 0:
            return self.back(reply[1])
        request.post = int.from_bytes(reply[1:9], "little")
        return self.open(request)

    def mrecv(self, at, cap, message, status, *_):
        """MRECV."""
        check(cap <= MOST_COUNT, BAD_COUNT)
        check(self.memory.can_write(at, cap), BAD_BUFFER)
        self.check_status(status)
        if message == MESSAGE_NO_PROC:
            self.alone(LOCAL)
            self.write_status(status, OF_NULL)
            return self.back()
        return self.received(self.ask("claimed", True, message), at, cap, status)

    # ---- persistent requests

    def send_init(self, at, count, dest, tag, comm, *_):
        """SEND_INIT."""
        self.check_send(at, count, dest, tag, comm)
        self.free_handle()
        self.alone(LOCAL)
        self.open(Request(SEND, Transfer(at, count, dest, tag, comm), True))

    def recv_init(self, at, cap, source, tag, comm, *_):
        """RECV_INIT."""
        self.check_recv(at, cap, source, tag, comm)
        self.free_handle()
        self.alone(LOCAL)
        self.open(Request(RECV, Transfer(at, cap, source, tag, comm), True))

    def start(self, handle, *_):
        """START."""
        request = self.request(handle)
        check(request.persistent, BAD_REQUEST)
        check(not request.active, ACTIVE)
        if request.is_partitioned():
            self.alone(LOCAL)
            request.side.begin()
        elif signed(request.transfer.peer) == NULL:
            self.alone(LOCAL)
        elif request.kind == SEND:
            reply = self.ask_send(request.transfer, False)
            if reply[0] == 0:
                return self.back(reply[1])
            request.sent = int.from_bytes(reply[1:9], "little")
        else:
            request.post = int.from_bytes(self.ask_recv(request.transfer, False)[1:9], "little")
        request.active = True
        return self.back()

    def free(self, handle, *_):
        """REQUEST_FREE."""
        request = self.request(handle)
        check(not request.active, ACTIVE)
        self.alone(LOCAL)
        del self.requests[handle]
        self.back()

    # ---- several at once

    def check_several(self, at, count, statuses):
        """The checks of TESTALL and WAITALL: the handles."""
        check(count <= MOST_HANDLES, BAD_COUNT)
        check(self.memory.can_read(at, 8 * count), BAD_BUFFER)
        handles, seen = [self.memory.word(at + 8 * place) for place in range(count)], set()
        for handle in handles:
            request = self.requests.get(handle)
            check(handle == 0 or (request is not None and not request.is_partitioned()), BAD_REQUEST)
            if request is not None and request.active:
                check(handle not in seen, BAD_REQUEST)
                seen.add(handle)
        check(statuses == 0 or self.memory.can_write(statuses, 24 * count), BAD_BUFFER)
        return handles

    def several(self, waits, at, count, statuses):
        """TESTALL and WAITALL."""
        handles = self.check_several(at, count, statuses)
        named = [self.requests.get(handle) for handle in handles]
        asked = [request for request in named if request is not None and request.active and request.post is not None]
        gots = {}
        if asked:
            reply = self.ask("all", [request.post for request in asked])
            if reply == NOT_YET:
                return self.not_yet(waits)
            if reply[0] == 0:
                return self.back(reply[1])
            gots = dict(zip(map(id, asked), messages_of(reply)))
        else:
            self.alone(LOCAL)
        return self.finish_several(waits, handles, statuses, gots)

    def finish_several(self, waits, handles, statuses, gots):
        """Ends TESTALL or WAITALL: all bytes are written, then all statuses."""
        code, told = OK, []
        for handle in handles:
            request = self.requests.get(handle)
            message = gots.get(id(request))
            if message:
                one, status = self.store(message, request.transfer.at, request.transfer.count)
                code = max(code, one)
            elif id(request) in gots:
                status = EMPTY
            else:
                status = self.ready_status(request)
            told.append(status)
        if statuses:
            for place, status in enumerate(told):
                self.write_status(statuses + 24 * place, status)
        for handle in handles:
            request = self.requests.get(handle)
            if request is not None and request.active:
                self.complete(handle)
        return self.back(code, 0 if waits else 1)

    def testall(self, at, count, statuses, *_):
        """TESTALL."""
        self.several(False, at, count, statuses)

    def waitall(self, at, count, statuses, *_):
        """WAITALL."""
        self.several(True, at, count, statuses)

    def handles_ahead(self, hart, one=wait_for, several=waitall):
        """The handles of the WAIT or WAITALL, or of two calls like these, that a hart makes in its next turn: none where it makes
        none, or a check refuses it."""
        is_again = hart.mode == WAITING and hart.why is None
        if not is_again and not (hart.mode == RUNNING and is_at_call(hart, self.memory)):
            return []
        call, words = ROWS.get(hart.regs[17]), hart.regs[10:13]
        try:
            if call is one:
                self.check_one(*words[:2])
                return words[:1]
            return self.check_several(*words) if call is several else []
        except Refused:
            return []

    def sends_ahead(self, hart):
        """The posts of the standard sends that such a call is to complete, in the order of the handles."""
        named = [self.requests.get(handle) for handle in self.handles_ahead(hart)]
        return [request.sent for request in named if request is not None and request.sent is not None]

    # ---- partitioned requests

    def init(self, sends, at, parts, size, peer, tag, comm):
        """PSEND_INIT and PRECV_INIT."""
        self.check_peer(comm, peer, tag, (), ())
        check(1 <= parts <= 16, BAD_PARTITION)
        check(8 <= size <= self.cluster.width and size % 8 == 0, BAD_COUNT)
        in_place = self.memory.can_read if sends else self.memory.can_write
        check(in_place(at, parts * size), BAD_BUFFER)
        self.free_handle()
        reply = self.ask("init", sends, comm, self.world(comm, peer), tag, parts, size)
        if reply[0] == 0:
            return self.back(reply[1])
        request = Request(PSEND if sends else PRECV, Transfer(at, parts * size, peer, tag, comm, parts), True)
        request.side = Side(reply[1], parts, size)
        return self.open(request)

    def psend_init(self, *arguments):
        """PSEND_INIT."""
        self.init(True, *arguments)

    def precv_init(self, *arguments):
        """PRECV_INIT."""
        self.init(False, *arguments)

    def pready(self, handle, part, *_):
        """PREADY."""
        request = self.request(handle)
        check(request.kind == PSEND, BAD_REQUEST)
        side = request.side
        check(part < side.parts, BAD_PARTITION)
        check(request.active, NOT_ACTIVE)
        check(part not in side.ready, ALREADY_READY)
        box = self.box(side, part)
        text = self.memory.read(request.transfer.at + part * side.size, side.size)
        if box.text is not None:
            raise Impossible("a partition is made ready in a box that is full")
        self.event = (READY, self.clock + 1, b"")
        box.text, box.stamp = text, self.clock + 1
        side.ready.add(part)
        self.back()

    def ask_cut(self, side):
        """Asks the hub for the sender's cut."""
        reply = self.ask("cut", side.link)
        if reply[0] == 9:
            side.cut = (reply[1], int.from_bytes(reply[2:4], "little"))

    def look(self, request, number):
        """Looks at a box, and writes its bytes where it is full: whether it was."""
        side, box = request.side, self.box(request.side, number)
        if box.text is None or self.must_miss:
            self.event = (MISS, self.clock + 1, b"")
            return False
        stamp = max(self.clock, box.stamp) + 1
        self.event = (TAKE, stamp, b"")
        self.memory.write(request.transfer.at + number * side.cut[1], box.text)
        box.text, box.stamp = None, stamp
        side.taken.add(number)
        return True

    def parrived(self, handle, part, *_):
        """PARRIVED."""
        request = self.request(handle)
        check(request.kind == PRECV, BAD_REQUEST)
        side = request.side
        check(part < side.parts, BAD_PARTITION)
        if not request.active or side.has_all():
            self.alone(LOCAL)
            return self.back(OK, 1)
        if side.cut is None:
            self.ask_cut(side)
            return self.back(OK, 0)
        left = [box for box in side.boxes_of(part) if box not in side.taken]
        if not left:
            self.alone(LOCAL)
            return self.back(OK, 1)
        taken = self.look(request, left[0])
        return self.back(OK, int(taken and len(left) == 1))

    def try_phase(self, waits, handle, request, status):
        """TEST and WAIT of a partitioned request in its phase."""
        side = request.side
        if request.kind == PSEND:
            return self.try_sent(waits, handle, side, status)
        transfer = request.transfer
        told = (transfer.peer, transfer.tag, transfer.count)
        if side.has_all():
            self.alone(LOCAL)
            return self.finish(waits, handle, status, OK, told)
        if side.cut is None:
            self.ask_cut(side)
            return self.not_yet(waits)
        left = [box for box in range(side.cut[0]) if box not in side.taken]
        if self.look(request, left[0]) and len(left) == 1:
            return self.finish(waits, handle, status, OK, told)
        return self.not_yet(waits)

    def try_sent(self, waits, handle, side, status):
        """TEST and WAIT of a sender: its lowest partition that isn't known to be taken."""
        if side.freed not in side.ready:
            self.alone(HELD if waits else LOCAL)
            return self.not_yet(waits)
        box = self.box(side, side.freed)
        if box.text is not None or self.must_miss:
            self.event = (MISS, self.clock + 1, b"")
            return self.not_yet(waits)
        self.event = (FREED, max(self.clock, box.stamp) + 1, b"")
        side.freed += 1
        if side.freed == side.parts:
            return self.finish(waits, handle, status, OK, EMPTY)
        return self.not_yet(waits)


class Impossible(Exception):
    """Something that the rules never let happen."""


def messages_of(reply):
    """The messages of several posts, each as its bytes or as none."""
    at, messages = 2, []
    for _ in range(reply[1]):
        there = reply[at]
        at += 1
        if not there:
            messages.append(None)
            continue
        length = 6 + int.from_bytes(reply[at + 4 : at + 6], "little")
        messages.append(reply[at : at + length])
        at += length
    return messages


ROWS = {
    0: Rank.exit,
    1: Rank.put,
    2: Rank.tell_rank,
    3: Rank.tell_size,
    4: Rank.tell_hart,
    16: Rank.send,
    17: Rank.ssend,
    18: Rank.recv,
    19: Rank.isend,
    20: Rank.issend,
    21: Rank.irecv,
    22: Rank.test,
    23: Rank.wait_for,
    24: Rank.iprobe,
    25: Rank.probe,
    26: Rank.improbe,
    27: Rank.mprobe,
    28: Rank.imrecv,
    29: Rank.mrecv,
    30: Rank.send_init,
    31: Rank.recv_init,
    32: Rank.start,
    33: Rank.free,
    34: Rank.testall,
    35: Rank.waitall,
    40: Rank.psend_init,
    41: Rank.precv_init,
    42: Rank.pready,
    43: Rank.parrived,
}
