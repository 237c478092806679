//! The twin of bench/pingpong.s: messages of 8 bytes go between two ranks and back, by the queues of queues.rs and the
//! hub of hub.rs, which has an entry for each call, those in vain too. On threads the hub stands behind a Mutex, and
//! each rank takes its own turns; on one thread the ranks take turns one by one. A rank executes no instructions, but
//! takes so many turns before each call as it is told, and counts them; 0 has a call follow a call. Nothing here is
//! proved.
//!
//! usage: pingpong MESSAGES one|threads [BEFORE_SEND BEFORE_RECEIVE]

use std::sync::Mutex;
use std::{env, process, thread};

include!("queues.rs");
include!("hub.rs");

const TAG: u16 = 7;

/// How many turns come before each call.
#[derive(Clone, Copy)]
struct Before {
    send: u64,
    receive: u64,
}

enum Next {
    Send,
    Receive,
    Collect(u64),
    End,
}

struct Rank {
    number: u8,
    clock: u64,
    turns: u64,
    vain: u64,
    before: Before,
    /// Turns to take before what is next.
    plain: u64,
    next: Next,
    /// Messages to come.
    left: u32,
    last: u64,
}

impl Rank {
    fn new(number: u8, messages: u32, before: Before) -> Rank {
        let (next, plain) = match number {
            0 => (Next::Send, before.send),
            _ => (Next::Receive, before.receive),
        };
        Rank {
            number,
            clock: 0,
            turns: 0,
            vain: 0,
            before,
            plain,
            next,
            left: messages / 2,
            last: 0,
        }
    }

    fn request(&self) -> Option<Request> {
        let other = 1 - self.number;
        match self.next {
            Next::Send => Some(Request::Send {
                sent: Sent {
                    dest: other,
                    comm: 0,
                    source: self.number,
                    tag: TAG,
                },
                body: Box::new((self.last + 1).to_le_bytes()),
            }),
            Next::Receive => Some(Request::Receive(Key {
                rank: self.number,
                comm: 0,
                source: Some(other),
                tag: Some(TAG),
            })),
            Next::Collect(post) => Some(Request::Collect(post)),
            Next::End => None,
        }
    }

    /// What comes behind a reply. Rank 0 ends with a message that it gets, rank 1 with one that it sends.
    fn told(&mut self, reply: Reply) {
        match (&self.next, reply) {
            (Next::Send, _) if self.left == 0 => self.next = Next::End,
            (Next::Send, _) => (self.next, self.plain) = (Next::Receive, self.before.receive),
            (_, Reply::Posted(post)) => self.next = Next::Collect(post),
            (_, Reply::NotYet) => self.vain += 1,
            (_, Reply::Got(_, body)) => {
                self.last = u64::from_le_bytes(body[..].try_into().unwrap());
                self.left -= 1;
                (self.next, self.plain) = match (self.number, self.left) {
                    (0, 0) => (Next::End, 0),
                    _ => (Next::Send, self.before.send),
                };
            }
        }
    }

    /// Takes a turn, with a call that `ask` makes of the hub. The answer is whether there was one to take.
    fn turn(&mut self, ask: impl FnOnce(u8, u64, Request) -> (Reply, u64)) -> bool {
        if self.plain > 0 {
            self.plain -= 1;
            self.clock += 1;
        } else if let Some(request) = self.request() {
            let (reply, stamp) = ask(self.number, self.clock, request);
            self.clock = stamp;
            self.told(reply);
        } else {
            return false;
        }
        self.turns += 1;
        true
    }

    /// Takes all turns, with a hub that others call as well. Who asked in vain lets another thread have the processor,
    /// which is faster than to ask again at once: that keeps the lock from the one who has something to send.
    fn run(mut self, hub: &Mutex<Hub>) -> Rank {
        let mut vain = self.vain;
        while self.turn(|rank, clock, request| hub.lock().unwrap().call(rank, clock, request)) {
            if self.vain > vain {
                vain = self.vain;
                thread::yield_now();
            }
        }
        self
    }
}

fn on_threads(ranks: [Rank; 2]) -> [Rank; 2] {
    let hub = Mutex::new(Hub::default());
    thread::scope(|scope| {
        let hub = &hub;
        let threads = ranks.map(|rank| scope.spawn(move || rank.run(hub)));
        threads.map(|it| it.join().unwrap())
    })
}

fn on_one_thread(mut ranks: [Rank; 2]) -> [Rank; 2] {
    let mut hub = Hub::default();
    let mut took = true;
    while took {
        took = false;
        for rank in &mut ranks {
            took |= rank.turn(|rank, clock, request| hub.call(rank, clock, request));
        }
    }
    ranks
}

fn usage() -> ! {
    eprintln!("usage: pingpong MESSAGES one|threads [BEFORE_SEND BEFORE_RECEIVE]");
    process::exit(2)
}

fn number(at: usize) -> Option<u32> {
    env::args()
        .nth(at)
        .map(|word| word.parse().unwrap_or_else(|_| usage()))
}

fn main() {
    let messages = number(1).unwrap_or_else(|| usage());
    let before = Before {
        send: number(3).unwrap_or(0).into(),
        receive: number(4).unwrap_or(0).into(),
    };
    let ranks = [0, 1].map(|number| Rank::new(number, messages, before));
    let ranks = match env::args().nth(2).as_deref() {
        Some("one") => on_one_thread(ranks),
        Some("threads") => on_threads(ranks),
        _ => usage(),
    };
    for rank in &ranks {
        println!(
            "rank {} ended {}, {} turns, {} of them in vain",
            rank.number, rank.last, rank.turns, rank.vain
        );
    }
}
