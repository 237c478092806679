//! The twin of bench/unexpected.s: rank 0 sends messages of 8 bytes while rank 1 rests, and then rank 1 receives them while
//! rank 0 rests. They call the hub of hub.rs, which has an entry for each call and the queues of queues.rs, and each has a
//! trace of trace.rs. The ranks take turns one by one, on one thread. They execute no instructions, but take PLAIN turns
//! before each call, and count them; 0 has a call follow a call. Nothing here is proved.
//!
//! usage: unexpected MESSAGES REST PLAIN        each rank rests for REST turns

use std::{env, process};

include!("queues.rs");
include!("hub.rs");
include!("trace.rs");

const TAG: u16 = 7;

struct Rank {
    number: u8,
    clock: u64,
    trace: Trace,
    /// Turns to take before what is next.
    plain: u64,
    /// Turns to take before each call.
    before: u64,
    rest: u64,
    messages: u64,
    /// The number in the last message that was sent or received.
    last: u64,
}

impl Rank {
    fn new(number: u8, messages: u64, rest: u64, before: u64) -> Rank {
        let first = if number == 0 { 0 } else { rest };
        Rank {
            number,
            clock: 0,
            trace: Trace::default(),
            plain: first + before,
            before,
            rest,
            messages,
            last: 0,
        }
    }

    fn request(&self) -> Request {
        match self.number {
            0 => Request::Send {
                sent: Sent {
                    dest: 1,
                    comm: 0,
                    source: 0,
                    tag: TAG,
                },
                body: Box::new((self.last + 1).to_le_bytes()),
            },
            _ => Request::Receive(Key {
                rank: 1,
                comm: 0,
                source: Some(0),
                tag: Some(TAG),
            }),
        }
    }

    /// What comes behind a reply. Rank 0 rests behind its last message, and rank 1 ends.
    fn told(&mut self, reply: Reply) {
        self.last = match reply {
            Reply::Got(_, body) => u64::from_le_bytes(body[..].try_into().unwrap()),
            _ if self.number == 0 => self.last + 1,
            _ => panic!("message {} isn't there yet", self.last + 1),
        };
        self.plain = match (self.last == self.messages, self.number) {
            (false, _) => self.before,
            (true, 0) => self.rest,
            _ => 0,
        };
    }

    /// Takes a turn. The answer is whether there was one to take.
    fn turn(&mut self, hub: &mut Hub) -> bool {
        if self.plain > 0 {
            self.plain -= 1;
            self.clock += 1;
            self.trace.push(self.clock, Kind::Plain);
        } else if self.last < self.messages {
            let (reply, stamp) = hub.call(self.number, self.clock, self.request());
            self.clock = stamp;
            self.trace.push(stamp, Kind::Hub);
            self.told(reply);
        } else {
            return false;
        }
        true
    }

    /// The lines of the report that say how the rank ended.
    fn tell(&self) {
        let (number, last, turns) = (self.number, self.last, self.trace.turns);
        println!("rank {number} hart 0 ended {last}\nrank {number} stop all-ended turns {turns}");
    }
}

fn number(at: usize) -> u64 {
    let word = env::args().nth(at).and_then(|word| word.parse().ok());
    word.unwrap_or_else(|| {
        eprintln!("usage: unexpected MESSAGES REST PLAIN");
        process::exit(2)
    })
}

fn main() {
    let (messages, rest, before) = (number(1), number(2), number(3));
    assert!(
        rest >= messages * (before + 1),
        "not all messages would wait"
    );
    let mut hub = Hub::default();
    let mut ranks = [0, 1].map(|number| Rank::new(number, messages, rest, before));
    let mut took = true;
    while took {
        took = false;
        for rank in &mut ranks {
            took |= rank.turn(&mut hub);
        }
    }
    ranks.iter().for_each(Rank::tell);
}
