//! The twin of programs/box in plain Rust: a gate and eight data words, each an AtomicU64, each step in SeqCst order.

use std::sync::atomic::{AtomicU64, Ordering::SeqCst};
use std::{env, process, thread};

const THINGS: u32 = 10_000;
const LOOKS: u32 = 10_000_000;
const LOOKS_AT_ONCE: u32 = 64;

#[derive(Default)]
struct PartBox {
    gate: AtomicU64,
    words: [AtomicU64; 8],
}

/// Loads the gate until it has this parity, and gives its stamp.
fn wait(place: &PartBox, parity: u64) -> Option<u64> {
    for looks in 0..LOOKS {
        let gate = place.gate.load(SeqCst);
        if gate % 2 == parity {
            return Some(gate / 2);
        }
        if looks >= LOOKS_AT_ONCE {
            thread::yield_now();
        }
    }
    None
}

fn make_all(place: &PartBox, things: u32) {
    let mut stamp = 1;
    for k in 0..things {
        for word in &place.words {
            word.store(u64::from(k), SeqCst);
        }
        place.gate.store(2 * stamp + 1, SeqCst);
        let Some(taken) = wait(place, 0) else { return };
        stamp = taken + 1;
    }
}

fn take_all(place: &PartBox, things: u32) -> u32 {
    for k in 0..things {
        let Some(stamp) = wait(place, 1) else { return k };
        let words: [u64; 8] = std::array::from_fn(|i| place.words[i].load(SeqCst));
        place.gate.store(2 * (stamp + 1), SeqCst);
        if words != [u64::from(k); 8] {
            return k;
        }
    }
    things
}

fn main() {
    let things = match env::args().nth(1) {
        None => THINGS,
        Some(word) => word.parse().unwrap_or_else(|_| {
            eprintln!("usage: box [THINGS]");
            process::exit(2)
        }),
    };
    let place = PartBox::default();
    let whole = thread::scope(|scope| {
        scope.spawn(|| make_all(&place, things));
        take_all(&place, things)
    });
    println!("{whole} of {things} things went through");
}
