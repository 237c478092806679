//! The twin of `rvmc dis`: the words of an image's text become lines of text, each put together by `write!` into one
//! string. The decoder is that of hart.rs; nothing here is proved.
//!
//! usage: dis <IMAGE
#![allow(dead_code)]

use std::fmt::{self, Display, Formatter, Write as _};
use std::io::{self, Read, Write as _};

include!("hart.rs");

static UPPERS: [&str; 2] = ["lui", "auipc"];
static BRANCHES: [&str; 6] = ["beq", "bne", "blt", "bge", "bltu", "bgeu"];
static LOADS: [&str; 7] = ["lb", "lh", "lw", "ld", "lbu", "lhu", "lwu"];
static STORES: [&str; 4] = ["sb", "sh", "sw", "sd"];
static IMMEDIATES: [&str; 7] = ["addi", "slti", "sltiu", "xori", "ori", "andi", "addiw"];
static SHIFTS: [&str; 6] = ["slli", "srli", "srai", "slliw", "srliw", "sraiw"];
static ARITHS: [&str; 28] = [
    "add", "sub", "sll", "slt", "sltu", "xor", "srl", "sra", "or", "and", "addw", "subw", "sllw", "srlw", "sraw", "mul",
    "mulh", "mulhsu", "mulhu", "div", "divu", "rem", "remu", "mulw", "divw", "divuw", "remw", "remuw",
];

impl Display for Reg {
    fn fmt(&self, f: &mut Formatter<'_>) -> fmt::Result {
        write!(f, "x{}", self.0)
    }
}

impl Display for Instr {
    fn fmt(&self, f: &mut Formatter<'_>) -> fmt::Result {
        match *self {
            Instr::Upper { op, rd, imm } => write!(f, "{} {rd}, 0x{:x}", UPPERS[op as usize], imm as u32 >> 12),
            Instr::Jal { rd, off } => write!(f, "jal {rd}, {off}"),
            Instr::Jalr { rd, rs1, off } => write!(f, "jalr {rd}, {off}({rs1})"),
            Instr::Branch { op, rs1, rs2, off } => write!(f, "{} {rs1}, {rs2}, {off}", BRANCHES[op as usize]),
            Instr::Load { op, rd, rs1, off } => write!(f, "{} {rd}, {off}({rs1})", LOADS[op as usize]),
            Instr::Store { op, rs1, rs2, off } => write!(f, "{} {rs2}, {off}({rs1})", STORES[op as usize]),
            Instr::Imm { op, rd, rs1, imm } => write!(f, "{} {rd}, {rs1}, {imm}", IMMEDIATES[op as usize]),
            Instr::Shift { op, rd, rs1, amount } => write!(f, "{} {rd}, {rs1}, {amount}", SHIFTS[op as usize]),
            Instr::Arith { op, rd, rs1, rs2 } => write!(f, "{} {rd}, {rs1}, {rs2}", ARITHS[op as usize]),
            Instr::Fence => f.write_str("fence"),
            Instr::Ecall => f.write_str("ecall"),
            Instr::Ebreak => f.write_str("ebreak"),
        }
    }
}

/// The words of an image's text, whose communicators and links stand before it.
fn text_of(image: &[u8]) -> Option<&[u8]> {
    let length = u32::from_le_bytes(image.get(16..20)?.try_into().ok()?) as usize;
    let (comms, links) = (image[24], usize::from(image[25]));
    let mut rest = image.get(28..)?;
    for _ in 0..comms {
        rest = rest.get(1 + usize::from(*rest.first()?)..)?;
    }
    rest.get(2 * links..)?.get(..length)
}

fn listing(text: &[u8]) -> Result<String, fmt::Error> {
    let mut lines = String::new();
    for (k, bytes) in text.chunks_exact(4).enumerate() {
        let word = u32::from_le_bytes([bytes[0], bytes[1], bytes[2], bytes[3]]);
        match decode(word) {
            Some(instr) => writeln!(lines, "{:08x}: {word:08x}  {instr}", 4 * k)?,
            None => writeln!(lines, "{:08x}: {word:08x}  .word 0x{word:08x}", 4 * k)?,
        }
    }
    Ok(lines)
}

fn main() -> io::Result<()> {
    let mut image = Vec::new();
    io::stdin().read_to_end(&mut image)?;
    let lines = text_of(&image).and_then(|text| listing(text).ok());
    io::stdout().write_all(lines.unwrap_or_default().as_bytes())
}
