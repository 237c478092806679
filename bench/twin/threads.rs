//! The twin of `rvmc run`: a thread for each rank, the hub of hub.rs with the queues of queues.rs behind a lock, and the
//! steps of hart.rs. A rank records an event of 24 bytes for each turn, and turns of one kind that follow one another as
//! one. A rank that waits for a message asks the hub once a turn, and lets another thread have the processor behind each
//! time that it asks in vain. Only the calls EXIT, SEND and RECV are there, of one communicator and without statuses;
//! nothing here is proved.
//!
//! usage: threads BUDGET [LEAD] <IMAGE        without LEAD no rank is held for another

use std::hint::spin_loop;
use std::io::Read;
use std::sync::Mutex;
use std::sync::atomic::{AtomicU64, Ordering::SeqCst};
use std::{env, io, process, thread};

include!("hart.rs");
include!("queues.rs");
include!("hub.rs");
include!("trace.rs");

// ---- how far a rank may be ahead

/// A count on a cache line of its own.
#[repr(align(64))]
struct Count(AtomicU64);

/// The turns of each rank so far; of one that has ended more than there can be.
struct Pace {
    counts: Vec<Count>,
    lead: u64,
}

impl Pace {
    fn slowest(&self) -> u64 {
        let counts = self.counts.iter().map(|it| it.0.load(SeqCst));
        counts.min().unwrap_or(u64::MAX)
    }

    /// Waits until a rank with so many turns isn't too far ahead of the slowest, which it saw at `seen` last.
    fn pass(&self, rank: usize, turns: u64, seen: &mut u64) {
        self.counts[rank].0.store(turns, SeqCst);
        let mut tries = 0;
        while turns > seen.saturating_add(self.lead) {
            *seen = self.slowest();
            tries += 1;
            if tries % 64 == 0 {
                thread::yield_now();
            } else {
                spin_loop();
            }
        }
    }

    fn end(&self, rank: usize) {
        self.counts[rank].0.store(u64::MAX, SeqCst);
    }
}

// ---- a rank

enum State {
    Running,
    /// On the post of its receive.
    Waiting(u64),
    Ended(u64),
}

struct Rank {
    number: usize,
    hart: Hart,
    memory: Memory,
    clock: u64,
    state: State,
    trace: Trace,
}

impl Rank {
    fn load(image: &Image, number: usize) -> Rank {
        let mut hart = Hart {
            regs: [0; 32],
            pc: image.entry,
            mode: Mode::Running,
        };
        hart.regs[2] = image.size as u64;
        hart.regs[11] = number as u64;
        let mut memory = Memory::new(image.size, &image.text);
        let start = image.text.len().next_multiple_of(16);
        memory.bytes[start..start + image.data.len()].copy_from_slice(&image.data);
        Rank {
            number,
            hart,
            memory,
            clock: 0,
            state: State::Running,
            trace: Trace::default(),
        }
    }

    fn buffer(&self) -> std::ops::Range<usize> {
        let start = self.hart.regs[10] as usize;
        start..start + self.hart.regs[11] as usize
    }

    /// What the registers spell, where it is a call of the hub; of a rank that waits whether its message is there.
    fn request(&self) -> Option<Request> {
        if let State::Waiting(post) = self.state {
            return Some(Request::Collect(post));
        }
        let (number, other) = (self.number as u8, self.hart.regs[12] as u8);
        let tag = self.hart.regs[13] as u16;
        match self.hart.regs[17] {
            16 => Some(Request::Send {
                sent: Sent {
                    dest: other,
                    comm: 0,
                    source: number,
                    tag,
                },
                body: self.memory.bytes[self.buffer()].into(),
            }),
            18 => Some(Request::Receive(Key {
                rank: number,
                comm: 0,
                source: Some(other),
                tag: Some(tag),
            })),
            _ => None,
        }
    }

    fn exit(&mut self) {
        self.clock += 1;
        self.trace.push(self.clock, Kind::Local);
        self.state = State::Ended(self.hart.regs[10]);
    }

    /// Makes the call of the hub that the registers spell; any other call is EXIT.
    fn call(&mut self, hub: &Mutex<Hub>) {
        let Some(request) = self.request() else {
            return self.exit();
        };
        let is_receive = matches!(request, Request::Receive(_));
        let (reply, stamp) = hub.lock().unwrap().call(self.number as u8, self.clock, request);
        self.clock = stamp;
        self.trace.push(stamp, Kind::Hub);
        match reply {
            Reply::NotYet => return thread::yield_now(),
            Reply::Posted(post) if is_receive => {
                self.state = State::Waiting(post);
                return;
            }
            Reply::Posted(_) => {}
            Reply::Got(_, body) => {
                let buffer = self.buffer();
                let count = body.len().min(buffer.len());
                self.memory.bytes[buffer][..count].copy_from_slice(&body[..count]);
            }
        }
        self.state = State::Running;
        self.hart.regs[10] = 0;
        self.hart.regs[11] = 0;
        self.hart.pc += 4;
    }

    /// Gives the hart a turn: an instruction, a call, or one more try of a call that waits.
    fn turn(&mut self, hub: &Mutex<Hub>) {
        if let State::Waiting(_) = self.state {
            return self.call(hub);
        }
        match step(&mut self.hart, &mut self.memory) {
            Did::Call => self.call(hub),
            _ => {
                self.clock += 1;
                self.trace.push(self.clock, Kind::Plain);
            }
        }
    }

    /// Takes turns until the hart has ended or the budget is used.
    fn run(mut self, hub: &Mutex<Hub>, pace: Option<&Pace>, budget: u64) -> Rank {
        let mut seen = 0;
        while self.trace.turns < budget {
            if let State::Ended(_) = self.state {
                break;
            }
            if let Some(pace) = pace {
                pace.pass(self.number, self.trace.turns, &mut seen);
            }
            self.turn(hub);
        }
        if let Some(pace) = pace {
            pace.end(self.number);
        }
        self
    }

    /// The lines of the report; a rank puts nothing out.
    fn tell(&self) {
        let (number, pc, turns) = (self.number, self.hart.pc, self.trace.turns);
        let (hart, why) = match self.state {
            State::Ended(code) => (format!("ended {code}"), "all-ended"),
            State::Running => (format!("running at {pc:#x}"), "budget"),
            State::Waiting(_) => (format!("waiting at {pc:#x}"), "budget"),
        };
        println!("rank {number} output 0\n\nrank {number} hart 0 {hart}");
        println!("rank {number} stop {why} turns {turns}");
    }
}

// ---- the image, and the run

struct Image {
    ranks: usize,
    size: usize,
    entry: u64,
    text: Vec<u8>,
    data: Vec<u8>,
}

/// Takes an image apart that the assembler made, of a source without communicators and links.
fn read_image() -> io::Result<Image> {
    let mut bytes = Vec::new();
    io::stdin().read_to_end(&mut bytes)?;
    let number = |at: usize| u32::from_le_bytes(bytes[at..at + 4].try_into().unwrap()) as usize;
    let (text, data) = (number(16), number(20));
    Ok(Image {
        ranks: bytes[6].into(),
        size: number(8),
        entry: number(12) as u64,
        text: bytes[28..28 + text].to_vec(),
        data: bytes[28 + text..28 + text + data].to_vec(),
    })
}

fn number(at: usize) -> Option<u64> {
    env::args().nth(at).and_then(|word| word.parse().ok())
}

fn main() -> io::Result<()> {
    let Some(budget) = number(1) else {
        eprintln!("usage: threads BUDGET [LEAD] <IMAGE");
        process::exit(2)
    };
    let image = read_image()?;
    let hub = Mutex::new(Hub::default());
    let pace = number(2).map(|lead| Pace {
        counts: (0..image.ranks).map(|_| Count(AtomicU64::new(0))).collect(),
        lead,
    });
    let ranks: Vec<Rank> = thread::scope(|scope| {
        let (hub, pace, image) = (&hub, pace.as_ref(), &image);
        let threads: Vec<_> = (0..image.ranks)
            .map(|rank| scope.spawn(move || Rank::load(image, rank).run(hub, pace, budget)))
            .collect();
        threads.into_iter().map(|it| it.join().unwrap()).collect()
    });
    for rank in &ranks {
        rank.tell();
    }
    Ok(())
}
