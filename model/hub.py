"""The hub, as docs/CLUSTER.md has it: what it answers, as the bytes that a record has of its replies."""

import struct

from formats import envelope_text, message_text

MOST_HELD = 65_536

# codes of the hub
BAD_REQUEST, FULL, NO_CHANNEL, SHAPE, BAD_MESSAGE = 6, 8, 10, 11, 14

NOT_YET, DONE = b"\3", b"\4"


def code(number):
    """The reply that is a code."""
    return bytes([0, number])


def posted(number, done):
    """The reply to a call that made a post."""
    return struct.pack("<BQB", 1, number, done)


class Post:
    """A send, a receive, or a claim that found a message."""

    def __init__(self, kind, rank):
        self.kind, self.rank = kind, rank
        self.partner = None
        # of a send: how, to whom, and what; of the others: what they select, a source and a tag or None for any
        self.sync = self.dest = self.envelope = self.text = None
        self.comm = self.source = self.tag = None
        # of a receive or a claim: whether its message was given; of a claim: whether it was received
        self.collected = self.received = False

    def accepts(self, send):
        """Whether a receive or a claim accepts a send."""
        comm, source, tag, _ = send.envelope
        return (
            send.dest == self.rank
            and comm == self.comm
            and self.source in (None, source)
            and self.tag in (None, tag)
        )


class Side:
    """One side of a partitioned transfer, and its link."""

    def __init__(self, sends, key, parts, size, link):
        self.sends, self.key, self.parts, self.size, self.link = sends, key, parts, size, link


class Hub:
    """All posts, the messages held, and the sides of transfers."""

    def __init__(self, links):
        self.links = links
        self.posts, self.sides = [], []
        self.held = 0
        self.clock = 0

    def post(self, number):
        """The post of a number, or None."""
        return self.posts[number - 1] if 1 <= number <= len(self.posts) else None

    def add(self, post):
        """Adds a post, joins it with the least-numbered post that may be its partner, and gives its number."""
        post.partner = next((old for old in self.posts if old.partner is None and self.may_pair(post, old)), None)
        if post.partner:
            post.partner.partner = post
        self.posts.append(post)
        return len(self.posts)

    @staticmethod
    def may_pair(new, old):
        """Whether a new post may have this earlier one as its partner: a claim takes what is there already."""
        if new.kind == "send":
            return old.kind == "receive" and old.accepts(new)
        return old.kind == "send" and new.accepts(old)

    # ---- requests: each gives the reply's bytes

    def send(self, rank, sync, comm, dest, tag, text):
        """A send, refused where too many messages are held."""
        if self.held >= MOST_HELD:
            return code(FULL)
        post = Post("send", rank)
        post.sync, post.dest, post.text = sync, dest, text
        post.envelope = (comm, rank, tag, len(text))
        self.held += 1
        number = self.add(post)
        return posted(number, not sync or post.partner is not None)

    @staticmethod
    def selecting(kind, rank, comm, source, tag):
        """A receive or a claim with what it selects."""
        post = Post(kind, rank)
        post.comm, post.source, post.tag = comm, source, tag
        return post

    def recv(self, rank, now, comm, source, tag):
        """A receive, which is given its message at once where that is asked for and it is there."""
        post = self.selecting("receive", rank, comm, source, tag)
        number = self.add(post)
        if now and post.partner:
            return self.given(post)
        return posted(number, False)

    def given(self, post):
        """The message of a receive that has one, which isn't held any more."""
        post.collected = True
        self.held -= 1
        return b"\2" + self.message(post)

    @staticmethod
    def message(post):
        """The bytes of a receive's message."""
        return message_text(post.partner.envelope, post.partner.text)

    def may_collect(self, rank, post):
        """Whether a post is the rank's receive, or claim that was received, and not collected."""
        own = post is not None and post.kind != "send" and post.rank == rank and not post.collected
        return own and (post.kind == "receive" or post.received)

    def collect(self, rank, number):
        """The message of an earlier receive."""
        post = self.post(number)
        if not self.may_collect(rank, post):
            return code(BAD_REQUEST)
        return self.given(post) if post.partner else NOT_YET

    @staticmethod
    def is_complete(send):
        """Whether a send is complete: a standard one, and one that a receive has, or a claim that was received."""
        other = send.partner
        return not send.sync or (other is not None and (other.kind == "receive" or other.received))

    def finished(self, rank, number):
        """Whether an earlier send is complete."""
        post = self.post(number)
        if post is None or post.kind != "send" or post.rank != rank:
            return code(BAD_REQUEST)
        return DONE if self.is_complete(post) else NOT_YET

    def found(self, new):
        """The send that a new receive or claim would be given."""
        return next((old for old in self.posts if old.partner is None and self.may_pair(new, old)), None)

    def probe(self, rank, comm, source, tag):
        """What a receive would be given now."""
        send = self.found(self.selecting("receive", rank, comm, source, tag))
        return b"\5" + envelope_text(send.envelope) if send else NOT_YET

    def claim(self, rank, comm, source, tag):
        """Takes a message out of matching."""
        post = self.selecting("claim", rank, comm, source, tag)
        if not self.found(post):
            return NOT_YET
        number = self.add(post)
        return struct.pack("<BQ", 6, number) + envelope_text(post.partner.envelope)

    def claimed(self, rank, now, number):
        """Receives a claimed message, once."""
        post = self.post(number)
        if post is None or post.kind != "claim" or post.rank != rank or post.received:
            return code(BAD_MESSAGE)
        post.received = True
        return self.given(post) if now else posted(number, False)

    def all(self, rank, numbers):
        """The messages of several posts, all or none."""
        posts = [self.post(number) for number in numbers]
        known = all(
            self.may_collect(rank, post) or (post is not None and post.kind == "send" and post.rank == rank)
            for post in posts
        )
        if len(set(numbers)) < len(numbers) or not known:
            return code(BAD_REQUEST)
        if not all(self.is_complete(post) if post.kind == "send" else post.partner for post in posts):
            return NOT_YET
        gots = [b"\0" if post.kind == "send" else b"\1" + self.given(post)[1:] for post in posts]
        return bytes([7, len(gots)]) + b"".join(gots)

    def init(self, rank, sends, comm, peer, tag, parts, size):
        """Begins a side of a partitioned transfer. The i-th of one side and the i-th of the other are a pair."""
        ends = (rank, peer) if sends else (peer, rank)
        key = (comm, *ends, tag)
        same = sum(1 for side in self.sides if side.key == key and side.sends == sends)
        others = [side for side in self.sides if side.key == key and side.sends != sends]
        if same < len(others):
            other = others[same]
            if other.parts * other.size != parts * size:
                return code(SHAPE)
            link = other.link
        else:
            reserved = {side.link for side in self.sides}
            free = (at for at, link in enumerate(self.links) if tuple(link) == ends and at not in reserved)
            link = next(free, None)
            if link is None:
                return code(NO_CHANNEL)
        self.sides.append(Side(sends, key, parts, size, link))
        return bytes([8, link])

    def cut(self, rank, link):
        """How the sender of a link cut its transfer."""
        if link >= len(self.links) or self.links[link][1] != rank:
            return code(BAD_REQUEST)
        side = next((side for side in self.sides if side.link == link and side.sends), None)
        return struct.pack("<BBH", 9, side.parts, side.size) if side else NOT_YET
