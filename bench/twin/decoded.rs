//! The twin of the steps of `bench_turn` that decodes each word of the text once, before the first step, and records
//! nothing.
use std::env;

include!("hart.rs");
include!("guest.rs");

/// The instruction of each word of the text, None where it has none. No store reaches the text, so they stay right.
fn decoded_text(memory: &Memory) -> Vec<Option<Instr>> {
    let words = (0..memory.text / 4).filter_map(|k| memory.text_word(4 * k));
    words.map(decode).collect()
}

fn decoded_step(hart: &mut Hart, memory: &mut Memory, text: &[Option<Instr>]) -> Did {
    // between two words stands one that isn't in the list
    if hart.pc % 4 != 0 {
        return step(hart, memory);
    }
    match text.get((hart.pc / 4) as usize) {
        None => hart.trap(Cause::InstructionAccess),
        Some(None) => hart.trap(Cause::IllegalInstruction),
        Some(Some(instr)) => execute(hart, memory, *instr),
    }
}

fn main() {
    let (mut memory, mut hart) = loaded_guest();
    let text = decoded_text(&memory);
    let steps = wanted();
    let mut done: u64 = 0;
    while done < steps {
        let Mode::Running = hart.mode else {
            break;
        };
        decoded_step(&mut hart, &mut memory, &text);
        done += 1;
    }
    tell(done, &hart);
}
