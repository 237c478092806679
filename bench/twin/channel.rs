//! The twin of programs/box's phases in plain Rust: sixteen boxes of a gate and data words, each an AtomicU64, each
//! step in SeqCst order.

use std::sync::atomic::{AtomicU64, Ordering::SeqCst};
use std::{env, process, thread};

const BOXES: usize = 16;
const LOOKS: u32 = 100_000_000;
const LOOKS_AT_ONCE: u32 = 64;

struct PartBox {
    words: Box<[AtomicU64]>,
}

impl PartBox {
    fn new(width: usize) -> PartBox {
        PartBox {
            words: (0..=width).map(|_| AtomicU64::new(0)).collect(),
        }
    }
}

struct Channel {
    boxes: Vec<PartBox>,
    width: usize,
}

struct SendSide {
    parts: u8,
    ready: [bool; BOXES],
    freed: u8,
}

enum Progress {
    AllFreed,
    NotReady,
    Missed(u64),
    Freed(u64),
}

impl SendSide {
    fn start(&mut self) {
        self.ready = [false; BOXES];
        self.freed = 0;
    }

    fn ready(&mut self, channel: &Channel, part: u8, bytes: &[u8], clock: u64) -> Option<u64> {
        let at = usize::from(part);
        if self.parts <= part || self.parts <= self.freed || self.ready[at] {
            return None;
        }
        let words = &channel.boxes[at].words;
        for i in 0..channel.width {
            let word = match bytes.get(8 * i..8 * i + 8) {
                Some(eight) => u64::from_le_bytes(eight.try_into().unwrap()),
                None => 0,
            };
            words[i + 1].store(word, SeqCst);
        }
        words[0].store(2 * (clock + 1) + 1, SeqCst);
        self.ready[at] = true;
        Some(clock + 1)
    }

    fn test(&mut self, channel: &Channel, clock: u64) -> Progress {
        if self.parts <= self.freed {
            return Progress::AllFreed;
        }
        let at = usize::from(self.freed);
        if !self.ready[at] {
            return Progress::NotReady;
        }
        let gate = channel.boxes[at].words[0].load(SeqCst);
        if gate % 2 == 1 {
            return Progress::Missed(clock + 1);
        }
        self.freed += 1;
        Progress::Freed(clock.max(gate / 2) + 1)
    }
}

struct RecvSide {
    boxes: u8,
    active: bool,
    taken: [bool; BOXES],
}

enum Take {
    Taken([u8; 128], u64),
    Missed(u64),
}

impl RecvSide {
    fn start(&mut self) {
        self.active = true;
        self.taken = [false; BOXES];
    }

    fn next(&self) -> Option<u8> {
        if !self.active {
            return None;
        }
        (0..self.boxes).find(|&i| !self.taken[usize::from(i)])
    }

    fn take(&mut self, channel: &Channel, part: u8, clock: u64) -> Option<Take> {
        let at = usize::from(part);
        if self.boxes <= part || !self.active || self.taken[at] {
            return None;
        }
        let words = &channel.boxes[at].words;
        let gate = words[0].load(SeqCst);
        if gate % 2 == 0 {
            return Some(Take::Missed(clock + 1));
        }
        let mut bytes = [0; 128];
        for i in 0..channel.width {
            bytes[8 * i..8 * i + 8].copy_from_slice(&words[i + 1].load(SeqCst).to_le_bytes());
        }
        let stamp = clock.max(gate / 2) + 1;
        words[0].store(2 * stamp, SeqCst);
        self.taken[at] = true;
        self.active = self.next().is_some();
        Some(Take::Taken(bytes, stamp))
    }
}

fn make_phase(channel: &Channel, side: &mut SendSide, bytes: &[u8], mut clock: u64) -> Option<u64> {
    for part in 0..BOXES as u8 {
        clock = side.ready(channel, part, bytes, clock)?;
    }
    Some(clock)
}

fn free_phase(channel: &Channel, side: &mut SendSide, mut clock: u64) -> Option<u64> {
    for looks in 0..LOOKS {
        match side.test(channel, clock) {
            Progress::AllFreed => return Some(clock),
            Progress::NotReady => return None,
            Progress::Freed(stamp) => clock = stamp,
            Progress::Missed(stamp) => {
                clock = stamp;
                if looks >= LOOKS_AT_ONCE {
                    thread::yield_now();
                }
            }
        }
    }
    None
}

fn make_all(channel: &Channel, side: &mut SendSide, phases: u32, size: usize) -> Option<()> {
    let mut clock = 0;
    for phase in 0..phases {
        side.start();
        let bytes = [phase as u8; 128];
        clock = make_phase(channel, side, &bytes[..size], clock)?;
        clock = free_phase(channel, side, clock)?;
    }
    Some(())
}

fn take_phase(channel: &Channel, side: &mut RecvSide, byte: u8, mut clock: u64) -> Option<u64> {
    for looks in 0..LOOKS {
        let Some(part) = side.next() else {
            return Some(clock);
        };
        match side.take(channel, part, clock) {
            Some(Take::Taken(bytes, stamp)) if bytes[0] == byte && bytes[63] == byte => clock = stamp,
            Some(Take::Missed(stamp)) => {
                clock = stamp;
                if looks >= LOOKS_AT_ONCE {
                    thread::yield_now();
                }
            }
            _ => return None,
        }
    }
    None
}

fn take_all(channel: &Channel, side: &mut RecvSide, phases: u32) -> u32 {
    let mut clock = 0;
    for phase in 0..phases {
        side.start();
        match take_phase(channel, side, phase as u8, clock) {
            Some(stamp) => clock = stamp,
            None => return phase,
        }
    }
    phases
}

fn main() {
    let numbers: Vec<u32> = env::args().skip(1).flat_map(|word| word.parse()).collect();
    let &[things, size] = &numbers[..] else {
        eprintln!("usage: channel THINGS 64|128");
        process::exit(2)
    };
    let (phases, size) = (things / BOXES as u32, size as usize);
    let width = size / 8;
    let channel = Channel {
        boxes: (0..BOXES).map(|_| PartBox::new(width)).collect(),
        width,
    };
    let parts = BOXES as u8;
    let mut send = SendSide { parts, ready: [false; BOXES], freed: parts };
    let mut recv = RecvSide { boxes: parts, active: false, taken: [false; BOXES] };
    let whole = thread::scope(|scope| {
        scope.spawn(|| make_all(&channel, &mut send, phases, size));
        take_all(&channel, &mut recv, phases)
    });
    println!("{} of {things} things went through", whole * BOXES as u32);
}
