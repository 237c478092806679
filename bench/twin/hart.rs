// The steps of a hart, for the twins step.rs and threads.rs, which include this text: the same design as rv_decode,
// rv_memory and rv_hart, written by hand in Rust, to compare speeds with. Not a part of the emulator, and nothing here
// is proved.

#[derive(Clone, Copy)]
enum UpperOp {
    Lui,
    Auipc,
}

#[derive(Clone, Copy)]
enum BranchOp {
    Beq,
    Bne,
    Blt,
    Bge,
    Bltu,
    Bgeu,
}

#[derive(Clone, Copy)]
enum LoadOp {
    Lb,
    Lh,
    Lw,
    Ld,
    Lbu,
    Lhu,
    Lwu,
}

#[derive(Clone, Copy)]
enum StoreOp {
    Sb,
    Sh,
    Sw,
    Sd,
}

#[derive(Clone, Copy)]
enum ImmOp {
    Addi,
    Slti,
    Sltiu,
    Xori,
    Ori,
    Andi,
    Addiw,
}

#[derive(Clone, Copy)]
enum ShiftOp {
    Slli,
    Srli,
    Srai,
    Slliw,
    Srliw,
    Sraiw,
}

#[derive(Clone, Copy)]
enum ArithOp {
    Add,
    Sub,
    Sll,
    Slt,
    Sltu,
    Xor,
    Srl,
    Sra,
    Or,
    And,
    Addw,
    Subw,
    Sllw,
    Srlw,
    Sraw,
    Mul,
    Mulh,
    Mulhsu,
    Mulhu,
    Div,
    Divu,
    Rem,
    Remu,
    Mulw,
    Divw,
    Divuw,
    Remw,
    Remuw,
}

#[derive(Clone, Copy)]
struct Reg(u8);

#[derive(Clone, Copy)]
enum Instr {
    Upper {
        op: UpperOp,
        rd: Reg,
        imm: i32,
    },
    Jal {
        rd: Reg,
        off: i32,
    },
    Jalr {
        rd: Reg,
        rs1: Reg,
        off: i32,
    },
    Branch {
        op: BranchOp,
        rs1: Reg,
        rs2: Reg,
        off: i32,
    },
    Load {
        op: LoadOp,
        rd: Reg,
        rs1: Reg,
        off: i32,
    },
    Store {
        op: StoreOp,
        rs1: Reg,
        rs2: Reg,
        off: i32,
    },
    Imm {
        op: ImmOp,
        rd: Reg,
        rs1: Reg,
        imm: i32,
    },
    Shift {
        op: ShiftOp,
        rd: Reg,
        rs1: Reg,
        amount: u8,
    },
    Arith {
        op: ArithOp,
        rd: Reg,
        rs1: Reg,
        rs2: Reg,
    },
    Fence,
    Ecall,
    Ebreak,
}

// ---- words

fn rd(word: u32) -> Reg {
    Reg((word >> 7 & 31) as u8)
}

fn rs1(word: u32) -> Reg {
    Reg((word >> 15 & 31) as u8)
}

fn rs2(word: u32) -> Reg {
    Reg((word >> 20 & 31) as u8)
}

fn funct3(word: u32) -> u32 {
    word >> 12 & 7
}

fn funct7(word: u32) -> u32 {
    word >> 25
}

fn imm_i(word: u32) -> i32 {
    word as i32 >> 20
}

fn imm_s(word: u32) -> i32 {
    word as i32 >> 25 << 5 | (word >> 7 & 31) as i32
}

fn imm_b(word: u32) -> i32 {
    word as i32 >> 31 << 12
        | (word >> 7 & 1) as i32 * 0x800
        | (word >> 25 & 0x3f) as i32 * 0x20
        | (word >> 8 & 0xf) as i32 * 2
}

fn imm_u(word: u32) -> i32 {
    (word & 0xffff_f000) as i32
}

fn imm_j(word: u32) -> i32 {
    word as i32 >> 31 << 20
        | (word >> 12 & 0xff) as i32 * 0x1000
        | (word >> 20 & 1) as i32 * 0x800
        | (word >> 21 & 0x3ff) as i32 * 2
}

fn branch(word: u32) -> Option<Instr> {
    let op = match funct3(word) {
        0 => BranchOp::Beq,
        1 => BranchOp::Bne,
        4 => BranchOp::Blt,
        5 => BranchOp::Bge,
        6 => BranchOp::Bltu,
        7 => BranchOp::Bgeu,
        _ => return None,
    };
    Some(Instr::Branch {
        op,
        rs1: rs1(word),
        rs2: rs2(word),
        off: imm_b(word),
    })
}

fn load(word: u32) -> Option<Instr> {
    let op = match funct3(word) {
        0 => LoadOp::Lb,
        1 => LoadOp::Lh,
        2 => LoadOp::Lw,
        3 => LoadOp::Ld,
        4 => LoadOp::Lbu,
        5 => LoadOp::Lhu,
        6 => LoadOp::Lwu,
        _ => return None,
    };
    Some(Instr::Load {
        op,
        rd: rd(word),
        rs1: rs1(word),
        off: imm_i(word),
    })
}

fn store(word: u32) -> Option<Instr> {
    let op = match funct3(word) {
        0 => StoreOp::Sb,
        1 => StoreOp::Sh,
        2 => StoreOp::Sw,
        3 => StoreOp::Sd,
        _ => return None,
    };
    Some(Instr::Store {
        op,
        rs1: rs1(word),
        rs2: rs2(word),
        off: imm_s(word),
    })
}

fn shift(word: u32, op: ShiftOp, amount: u32) -> Option<Instr> {
    Some(Instr::Shift {
        op,
        rd: rd(word),
        rs1: rs1(word),
        amount: amount as u8,
    })
}

fn imm(word: u32) -> Option<Instr> {
    let amount = word >> 20 & 0x3f;
    let op = match funct3(word) {
        0 => ImmOp::Addi,
        2 => ImmOp::Slti,
        3 => ImmOp::Sltiu,
        4 => ImmOp::Xori,
        6 => ImmOp::Ori,
        7 => ImmOp::Andi,
        1 if word >> 26 == 0 => return shift(word, ShiftOp::Slli, amount),
        5 if word >> 26 == 0 => return shift(word, ShiftOp::Srli, amount),
        5 if word >> 26 == 0x10 => return shift(word, ShiftOp::Srai, amount),
        _ => return None,
    };
    Some(Instr::Imm {
        op,
        rd: rd(word),
        rs1: rs1(word),
        imm: imm_i(word),
    })
}

fn word_imm(word: u32) -> Option<Instr> {
    let amount = word >> 20 & 0x1f;
    match (funct3(word), funct7(word)) {
        (0, _) => Some(Instr::Imm {
            op: ImmOp::Addiw,
            rd: rd(word),
            rs1: rs1(word),
            imm: imm_i(word),
        }),
        (1, 0) => shift(word, ShiftOp::Slliw, amount),
        (5, 0) => shift(word, ShiftOp::Srliw, amount),
        (5, 0x20) => shift(word, ShiftOp::Sraiw, amount),
        _ => None,
    }
}

fn arith(word: u32) -> Option<Instr> {
    let op = match (funct7(word), funct3(word)) {
        (0, 0) => ArithOp::Add,
        (0, 1) => ArithOp::Sll,
        (0, 2) => ArithOp::Slt,
        (0, 3) => ArithOp::Sltu,
        (0, 4) => ArithOp::Xor,
        (0, 5) => ArithOp::Srl,
        (0, 6) => ArithOp::Or,
        (0, 7) => ArithOp::And,
        (0x20, 0) => ArithOp::Sub,
        (0x20, 5) => ArithOp::Sra,
        (1, 0) => ArithOp::Mul,
        (1, 1) => ArithOp::Mulh,
        (1, 2) => ArithOp::Mulhsu,
        (1, 3) => ArithOp::Mulhu,
        (1, 4) => ArithOp::Div,
        (1, 5) => ArithOp::Divu,
        (1, 6) => ArithOp::Rem,
        (1, 7) => ArithOp::Remu,
        _ => return None,
    };
    Some(Instr::Arith {
        op,
        rd: rd(word),
        rs1: rs1(word),
        rs2: rs2(word),
    })
}

fn word_arith(word: u32) -> Option<Instr> {
    let op = match (funct7(word), funct3(word)) {
        (0, 0) => ArithOp::Addw,
        (0, 1) => ArithOp::Sllw,
        (0, 5) => ArithOp::Srlw,
        (0x20, 0) => ArithOp::Subw,
        (0x20, 5) => ArithOp::Sraw,
        (1, 0) => ArithOp::Mulw,
        (1, 4) => ArithOp::Divw,
        (1, 5) => ArithOp::Divuw,
        (1, 6) => ArithOp::Remw,
        (1, 7) => ArithOp::Remuw,
        _ => return None,
    };
    Some(Instr::Arith {
        op,
        rd: rd(word),
        rs1: rs1(word),
        rs2: rs2(word),
    })
}

fn decode(word: u32) -> Option<Instr> {
    match word & 0x7f {
        0x37 => Some(Instr::Upper {
            op: UpperOp::Lui,
            rd: rd(word),
            imm: imm_u(word),
        }),
        0x17 => Some(Instr::Upper {
            op: UpperOp::Auipc,
            rd: rd(word),
            imm: imm_u(word),
        }),
        0x6f => Some(Instr::Jal {
            rd: rd(word),
            off: imm_j(word),
        }),
        0x67 if funct3(word) == 0 => Some(Instr::Jalr {
            rd: rd(word),
            rs1: rs1(word),
            off: imm_i(word),
        }),
        0x63 => branch(word),
        0x03 => load(word),
        0x23 => store(word),
        0x13 => imm(word),
        0x1b => word_imm(word),
        0x33 => arith(word),
        0x3b => word_arith(word),
        0x0f if funct3(word) == 0 => Some(Instr::Fence),
        0x73 if word == 0x73 => Some(Instr::Ecall),
        0x73 if word == 0x10_0073 => Some(Instr::Ebreak),
        _ => None,
    }
}

// ---- memory

#[derive(Clone, Copy)]
enum Cause {
    InstructionMisaligned,
    InstructionAccess,
    IllegalInstruction,
    Breakpoint,
    LoadMisaligned,
    LoadAccess,
    StoreMisaligned,
    StoreAccess,
}

struct Memory {
    bytes: Vec<u8>,
    text: u64,
}

impl Memory {
    fn new(size: usize, text: &[u8]) -> Memory {
        let mut bytes = text.to_vec();
        bytes.resize(size, 0);
        Memory {
            bytes,
            text: text.len() as u64,
        }
    }

    fn text_word(&self, pc: u64) -> Option<u32> {
        if self.text < 4 || pc > self.text - 4 {
            return None;
        }
        let at = pc as usize;
        Some(u32::from_le_bytes(
            self.bytes[at..at + 4].try_into().unwrap(),
        ))
    }

    fn load<const N: usize>(&self, address: u64) -> Result<[u8; N], Cause> {
        if address % N as u64 != 0 {
            return Err(Cause::LoadMisaligned);
        }
        let at = address as usize;
        match self.bytes.get(at..at.wrapping_add(N)) {
            Some(bytes) => Ok(bytes.try_into().unwrap()),
            None => Err(Cause::LoadAccess),
        }
    }

    fn store<const N: usize>(&mut self, address: u64, value: [u8; N]) -> Result<(), Cause> {
        if address % N as u64 != 0 {
            return Err(Cause::StoreMisaligned);
        }
        if address < self.text {
            return Err(Cause::StoreAccess);
        }
        let at = address as usize;
        match self.bytes.get_mut(at..at.wrapping_add(N)) {
            Some(bytes) => {
                bytes.copy_from_slice(&value);
                Ok(())
            }
            None => Err(Cause::StoreAccess),
        }
    }
}

// ---- one step

#[derive(Clone, Copy)]
enum Mode {
    Running,
    #[allow(dead_code)]
    Trapped(Cause, u64),
}

enum Did {
    Plain,
    Call,
    Break,
    #[allow(dead_code)]
    Trap(Cause),
}

struct Hart {
    regs: [u64; 32],
    pc: u64,
    mode: Mode,
}

impl Hart {
    fn get(&self, register: Reg) -> u64 {
        self.regs[register.0 as usize & 31]
    }

    fn set(&mut self, register: Reg, value: u64) {
        if register.0 != 0 {
            self.regs[register.0 as usize & 31] = value;
        }
    }

    fn trap(&mut self, cause: Cause) -> Did {
        self.mode = Mode::Trapped(cause, self.pc);
        Did::Trap(cause)
    }

    fn pass(&mut self) -> Did {
        self.pc = self.pc.wrapping_add(4);
        Did::Plain
    }

    fn give(&mut self, rd: Reg, value: u64) -> Did {
        self.set(rd, value);
        self.pass()
    }

    fn jump(&mut self, rd: Reg, target: u64) -> Did {
        if target % 4 != 0 {
            return self.trap(Cause::InstructionMisaligned);
        }
        self.set(rd, self.pc.wrapping_add(4));
        self.pc = target;
        Did::Plain
    }
}

fn arith_result(op: ArithOp, a: u64, b: u64) -> u64 {
    let (low_a, low_b) = (a as i32, b as i32);
    let word = |value: i32| value as i64 as u64;
    match op {
        ArithOp::Add => a.wrapping_add(b),
        ArithOp::Sub => a.wrapping_sub(b),
        ArithOp::Sll => a << (b & 63),
        ArithOp::Slt => ((a as i64) < b as i64) as u64,
        ArithOp::Sltu => (a < b) as u64,
        ArithOp::Xor => a ^ b,
        ArithOp::Srl => a >> (b & 63),
        ArithOp::Sra => (a as i64 >> (b & 63)) as u64,
        ArithOp::Or => a | b,
        ArithOp::And => a & b,
        ArithOp::Addw => word(low_a.wrapping_add(low_b)),
        ArithOp::Subw => word(low_a.wrapping_sub(low_b)),
        ArithOp::Sllw => word(low_a << (b & 31)),
        ArithOp::Srlw => word((a as u32 >> (b & 31)) as i32),
        ArithOp::Sraw => word(low_a >> (b & 31)),
        ArithOp::Mul => a.wrapping_mul(b),
        ArithOp::Mulh => ((a as i64 as i128 * b as i64 as i128) >> 64) as u64,
        ArithOp::Mulhsu => ((a as i64 as i128 * b as i128) >> 64) as u64,
        ArithOp::Mulhu => ((a as u128 * b as u128) >> 64) as u64,
        ArithOp::Div if b == 0 => u64::MAX,
        ArithOp::Div => (a as i64).wrapping_div(b as i64) as u64,
        ArithOp::Divu if b == 0 => u64::MAX,
        ArithOp::Divu => a / b,
        ArithOp::Rem if b == 0 => a,
        ArithOp::Rem => (a as i64).wrapping_rem(b as i64) as u64,
        ArithOp::Remu if b == 0 => a,
        ArithOp::Remu => a % b,
        ArithOp::Mulw => word(low_a.wrapping_mul(low_b)),
        ArithOp::Divw if low_b == 0 => u64::MAX,
        ArithOp::Divw => word(low_a.wrapping_div(low_b)),
        ArithOp::Divuw if low_b == 0 => u64::MAX,
        ArithOp::Divuw => word((a as u32 / b as u32) as i32),
        ArithOp::Remw if low_b == 0 => word(low_a),
        ArithOp::Remw => word(low_a.wrapping_rem(low_b)),
        ArithOp::Remuw if low_b == 0 => word(low_a),
        ArithOp::Remuw => word((a as u32 % b as u32) as i32),
    }
}

fn imm_result(op: ImmOp, a: u64, imm: i32) -> u64 {
    let wide = imm as i64 as u64;
    match op {
        ImmOp::Addi => a.wrapping_add(wide),
        ImmOp::Slti => ((a as i64) < imm as i64) as u64,
        ImmOp::Sltiu => (a < wide) as u64,
        ImmOp::Xori => a ^ wide,
        ImmOp::Ori => a | wide,
        ImmOp::Andi => a & wide,
        ImmOp::Addiw => (a as i32).wrapping_add(imm) as i64 as u64,
    }
}

fn shift_result(op: ShiftOp, a: u64, amount: u8) -> u64 {
    match op {
        ShiftOp::Slli => a << amount,
        ShiftOp::Srli => a >> amount,
        ShiftOp::Srai => (a as i64 >> amount) as u64,
        ShiftOp::Slliw => ((a as i32) << amount) as i64 as u64,
        ShiftOp::Srliw => (a as u32 >> amount) as i32 as i64 as u64,
        ShiftOp::Sraiw => (a as i32 >> amount) as i64 as u64,
    }
}

fn is_taken(op: BranchOp, a: u64, b: u64) -> bool {
    match op {
        BranchOp::Beq => a == b,
        BranchOp::Bne => a != b,
        BranchOp::Blt => (a as i64) < b as i64,
        BranchOp::Bge => a as i64 >= b as i64,
        BranchOp::Bltu => a < b,
        BranchOp::Bgeu => a >= b,
    }
}

fn loaded(memory: &Memory, op: LoadOp, address: u64) -> Result<u64, Cause> {
    Ok(match op {
        LoadOp::Lb => i8::from_le_bytes(memory.load(address)?) as u64,
        LoadOp::Lh => i16::from_le_bytes(memory.load(address)?) as u64,
        LoadOp::Lw => i32::from_le_bytes(memory.load(address)?) as u64,
        LoadOp::Ld => u64::from_le_bytes(memory.load(address)?),
        LoadOp::Lbu => u64::from(u8::from_le_bytes(memory.load(address)?)),
        LoadOp::Lhu => u64::from(u16::from_le_bytes(memory.load(address)?)),
        LoadOp::Lwu => u64::from(u32::from_le_bytes(memory.load(address)?)),
    })
}

fn stored(memory: &mut Memory, op: StoreOp, address: u64, value: u64) -> Result<(), Cause> {
    match op {
        StoreOp::Sb => memory.store(address, (value as u8).to_le_bytes()),
        StoreOp::Sh => memory.store(address, (value as u16).to_le_bytes()),
        StoreOp::Sw => memory.store(address, (value as u32).to_le_bytes()),
        StoreOp::Sd => memory.store(address, value.to_le_bytes()),
    }
}

fn offset(base: u64, off: i32) -> u64 {
    base.wrapping_add_signed(off as i64)
}

fn execute(hart: &mut Hart, memory: &mut Memory, instr: Instr) -> Did {
    match instr {
        Instr::Upper {
            op: UpperOp::Lui,
            rd,
            imm,
        } => hart.give(rd, imm as i64 as u64),
        Instr::Upper {
            op: UpperOp::Auipc,
            rd,
            imm,
        } => hart.give(rd, offset(hart.pc, imm)),
        Instr::Jal { rd, off } => hart.jump(rd, offset(hart.pc, off)),
        Instr::Jalr { rd, rs1, off } => hart.jump(rd, offset(hart.get(rs1), off) & !1),
        Instr::Branch { op, rs1, rs2, off } => {
            if !is_taken(op, hart.get(rs1), hart.get(rs2)) {
                return hart.pass();
            }
            let target = offset(hart.pc, off);
            if target % 4 != 0 {
                return hart.trap(Cause::InstructionMisaligned);
            }
            hart.pc = target;
            Did::Plain
        }
        Instr::Load { op, rd, rs1, off } => match loaded(memory, op, offset(hart.get(rs1), off)) {
            Ok(value) => hart.give(rd, value),
            Err(cause) => hart.trap(cause),
        },
        Instr::Store { op, rs1, rs2, off } => {
            match stored(memory, op, offset(hart.get(rs1), off), hart.get(rs2)) {
                Ok(()) => hart.pass(),
                Err(cause) => hart.trap(cause),
            }
        }
        Instr::Imm { op, rd, rs1, imm } => hart.give(rd, imm_result(op, hart.get(rs1), imm)),
        Instr::Shift {
            op,
            rd,
            rs1,
            amount,
        } => hart.give(rd, shift_result(op, hart.get(rs1), amount)),
        Instr::Arith { op, rd, rs1, rs2 } => {
            hart.give(rd, arith_result(op, hart.get(rs1), hart.get(rs2)))
        }
        Instr::Fence => hart.pass(),
        Instr::Ecall => Did::Call,
        Instr::Ebreak => {
            hart.trap(Cause::Breakpoint);
            Did::Break
        }
    }
}

fn step(hart: &mut Hart, memory: &mut Memory) -> Did {
    let Some(word) = memory.text_word(hart.pc) else {
        return hart.trap(Cause::InstructionAccess);
    };
    let Some(instr) = decode(word) else {
        return hart.trap(Cause::IllegalInstruction);
    };
    execute(hart, memory, instr)
}
