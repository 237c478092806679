// The guest that the twins step.rs and decoded.rs step through; they include this text behind hart.rs.

/// The guest of `bench_turn`.
static GUEST: [u32; 18] = [
    0x0000_1437, // lui x8, 0x1
    0x0010_0293, // addi x5, x0, 1
    0x0000_0493, // addi x9, x0, 0
    0x0004_0393, // outer: addi x7, x8, 0
    0x0400_0313, // addi x6, x0, 64
    0x0003_be03, // inner: ld x28, 0(x7)
    0x0252_82b3, // mul x5, x5, x5
    0x005e_0e33, // add x28, x28, x5
    0x00de_0293, // addi x5, x28, 13
    0x01c3_b023, // sd x28, 0(x7)
    0x01c4_c4b3, // xor x9, x9, x28
    0x0074_de93, // srli x29, x9, 0x7
    0x005e_e463, // bltu x29, x5, skip
    0x01d4_84b3, // add x9, x9, x29
    0x0083_8393, // skip: addi x7, x7, 8
    0xfff3_0313, // addi x6, x6, -1
    0xfc03_1ae3, // bne x6, x0, inner
    0xfc9f_f06f, // jal x0, outer
];

/// The memory that the guest is loaded into, and its hart before the first step.
fn loaded_guest() -> (Memory, Hart) {
    let text: Vec<u8> = GUEST.iter().flat_map(|word| word.to_le_bytes()).collect();
    let mut hart = Hart {
        regs: [0; 32],
        pc: 0,
        mode: Mode::Running,
    };
    hart.regs[2] = 8192;
    (Memory::new(8192, &text), hart)
}

/// How many steps are wanted.
fn wanted() -> u64 {
    let word = env::args().nth(1);
    word.and_then(|word| word.parse().ok()).unwrap_or(1000)
}

/// Prints how many steps were done, and what of the hart tells whether they were right.
fn tell(done: u64, hart: &Hart) {
    println!("steps {done}");
    println!("pc {:016x}", hart.pc);
    for number in [5, 9] {
        println!("x{number} {:016x}", hart.regs[number]);
    }
}
