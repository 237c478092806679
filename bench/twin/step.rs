//! The twin of the steps of `bench_turn`: one hart that steps through the guest, and records nothing.
use std::env;

include!("hart.rs");
include!("guest.rs");

fn main() {
    let (mut memory, mut hart) = loaded_guest();
    let steps = wanted();
    let mut done: u64 = 0;
    while done < steps {
        let Mode::Running = hart.mode else {
            break;
        };
        step(&mut hart, &mut memory);
        done += 1;
    }
    tell(done, &hart);
}
