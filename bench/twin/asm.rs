//! The twin of `rv_asm`: a source becomes an image in two passes, with the same tests of tokens, labels, operands and
//! ranges. It knows the instructions by their own names, labels and `.memory`; nothing here is proved.
//!
//! usage: asm <SOURCE >IMAGE

use std::collections::HashMap;
use std::io::{self, Read, Write};

#[derive(Clone, Copy, PartialEq)]
enum Shape {
    Registers,
    Number,
    Shift(i64),
    Load,
    Store,
    Branch,
    Jump,
    Upper,
    Nothing,
}

/// The mnemonics of each shape, each with its word where all operands are 0.
static ROWS: [(Shape, &str); 11] = [
    (Shape::Registers, "add 33 sub 40000033 sll 1033 slt 2033 sltu 3033 xor 4033 srl 5033 sra 40005033 or 6033 and 7033 mul 2000033 mulh 2001033 mulhsu 2002033 mulhu 2003033 div 2004033 divu 2005033 rem 2006033 remu 2007033"),
    (Shape::Registers, "addw 3b subw 4000003b sllw 103b srlw 503b sraw 4000503b mulw 200003b divw 200403b divuw 200503b remw 200603b remuw 200703b"),
    (Shape::Number, "addi 13 slti 2013 sltiu 3013 xori 4013 ori 6013 andi 7013 addiw 1b"),
    (Shape::Shift(63), "slli 1013 srli 5013 srai 40005013"),
    (Shape::Shift(31), "slliw 101b srliw 501b sraiw 4000501b"),
    (Shape::Load, "lb 3 lh 1003 lw 2003 ld 3003 lbu 4003 lhu 5003 lwu 6003 jalr 67"),
    (Shape::Store, "sb 23 sh 1023 sw 2023 sd 3023"),
    (Shape::Branch, "beq 63 bne 1063 blt 4063 bge 5063 bltu 6063 bgeu 7063"),
    (Shape::Jump, "jal 6f"),
    (Shape::Upper, "lui 37 auipc 17"),
    (Shape::Nothing, "ecall 73 ebreak 100073 fence ff0000f"),
];

#[derive(Clone, Copy, PartialEq)]
enum Token<'a> {
    Name(&'a [u8]),
    Value(i64),
    Sign(u8),
}

/// An instruction of the first pass: its word without the target, and the target, which may be a label.
struct Item<'a> {
    line: usize,
    at: u32,
    shape: Shape,
    word: u32,
    label: Option<&'a [u8]>,
    value: i64,
}

fn is_word(byte: u8) -> bool {
    byte.is_ascii_alphanumeric() || matches!(byte, b'_' | b'.' | b'$')
}

fn number(word: &[u8]) -> Option<i64> {
    let word = std::str::from_utf8(word).ok()?;
    match word.strip_prefix("0x") {
        Some(digits) => i64::from_str_radix(digits, 16).ok(),
        None => word.parse().ok(),
    }
}

fn take_tokens<'a>(line: &'a [u8], tokens: &mut Vec<Token<'a>>) -> Option<()> {
    tokens.clear();
    let mut at = 0;
    while at < line.len() {
        let start = at;
        at += 1;
        match line[start] {
            b' ' | b'\t' => {}
            b'#' => break,
            sign @ (b',' | b':' | b'(' | b')' | b'+') => tokens.push(Token::Sign(sign)),
            first if is_word(first) || first == b'-' => {
                at += line[at..].iter().take_while(|it| is_word(**it)).count();
                let word = &line[start..at];
                let is_number = first == b'-' || first.is_ascii_digit();
                tokens.push(if is_number { Token::Value(number(word)?) } else { Token::Name(word) });
            }
            _ => return None,
        }
    }
    Some(())
}

fn register(token: Token<'_>) -> Option<u32> {
    let Token::Name([b'x', digits @ ..]) = token else {
        return None;
    };
    number(digits).filter(|it| (0..32).contains(it)).map(|it| it as u32)
}

/// The registers' bits, and the target of an instruction: None where the operands don't have its shape.
fn operands<'a>(shape: Shape, tokens: &[Token<'a>]) -> Option<(u32, Option<&'a [u8]>, i64)> {
    use Token::{Name, Sign, Value};
    let comma = Sign(b',');
    let (first, rest) = match tokens {
        [] => return (shape == Shape::Nothing).then_some((0, None, 0)),
        [first, sign, rest @ ..] if *sign == comma => (register(*first)?, rest),
        _ => return None,
    };
    let place = if matches!(shape, Shape::Store | Shape::Branch) { 20 } else { 7 };
    match (shape, rest) {
        (Shape::Registers, [a, sign, b]) if *sign == comma => Some((first << 7 | register(*a)? << 15 | register(*b)? << 20, None, 0)),
        (Shape::Number | Shape::Shift(_), [a, sign, Value(n)]) if *sign == comma => Some((first << 7 | register(*a)? << 15, None, *n)),
        (Shape::Load | Shape::Store, [Value(n), Sign(b'('), a, Sign(b')')]) => Some((first << place | register(*a)? << 15, None, *n)),
        (Shape::Branch, [a, sign, Name(label)]) if *sign == comma => Some((first << 15 | register(*a)? << 20, Some(*label), 0)),
        (Shape::Branch, [a, sign, Value(n)]) if *sign == comma => Some((first << 15 | register(*a)? << 20, None, *n)),
        (Shape::Jump, [Name(label)]) => Some((first << 7, Some(*label), 0)),
        (Shape::Jump | Shape::Upper, [Value(n)]) => Some((first << 7, None, *n)),
        _ => None,
    }
}

/// The word with its target's bits: None where it doesn't fit.
fn filled(shape: Shape, word: u32, n: i64) -> Option<u32> {
    let bits = n as u32;
    let (range, field) = match shape {
        Shape::Registers | Shape::Nothing => (0..1, 0),
        Shape::Shift(most) => (0..most + 1, bits << 20),
        Shape::Number | Shape::Load => (-2048..2048, bits << 20),
        Shape::Store => (-2048..2048, (bits >> 5 & 0x7f) << 25 | (bits & 31) << 7),
        Shape::Branch => (-4096..4096, (bits >> 12 & 1) << 31 | (bits >> 5 & 0x3f) << 25 | (bits >> 1 & 15) << 8 | (bits >> 11 & 1) << 7),
        Shape::Jump => (-1_048_576..1_048_576, (bits >> 20 & 1) << 31 | (bits >> 1 & 0x3ff) << 21 | (bits >> 11 & 1) << 20 | (bits >> 12 & 0xff) << 12),
        Shape::Upper => (0..1_048_576, bits << 12),
    };
    let is_even = !matches!(shape, Shape::Branch | Shape::Jump) || n % 2 == 0;
    (range.contains(&n) && is_even).then_some(word | field)
}

/// The items and the labels of a source, and the memory that it wants; else the first line that is wrong.
fn first_pass(source: &str) -> Result<(Vec<Item<'_>>, HashMap<&[u8], u32>, u32), usize> {
    let words = ROWS.iter().flat_map(|(shape, text)| {
        let names = text.split(' ').step_by(2).zip(text.split(' ').skip(1).step_by(2));
        names.map(|(name, word)| (name.as_bytes(), (*shape, u32::from_str_radix(word, 16).unwrap_or(0))))
    });
    let words: HashMap<&[u8], (Shape, u32)> = words.collect();
    let (mut items, mut labels, mut memory, mut tokens) = (Vec::new(), HashMap::new(), 65536, Vec::new());
    for (line, text) in source.lines().enumerate() {
        take_tokens(text.as_bytes(), &mut tokens).ok_or(line + 1)?;
        let (mut rest, at) = (tokens.as_slice(), 4 * items.len() as u32);
        while let [Token::Name(name), Token::Sign(b':'), after @ ..] = rest {
            if labels.insert(*name, at).is_some() {
                return Err(line + 1);
            }
            rest = after;
        }
        match rest {
            [] => {}
            [Token::Name(b".memory"), Token::Value(n)] => memory = *n as u32,
            [Token::Name(name), rest @ ..] => {
                let (shape, word) = *words.get(name).ok_or(line + 1)?;
                let (bits, label, value) = operands(shape, rest).ok_or(line + 1)?;
                items.push(Item { line: line + 1, at, shape, word: word | bits, label, value });
            }
            _ => return Err(line + 1),
        }
    }
    Ok((items, labels, memory))
}

fn assemble(source: &str) -> Result<Vec<u8>, usize> {
    let (items, labels, memory) = first_pass(source)?;
    let mut image = b"RVMC\x02\0\x01\x01".to_vec();
    for number in [memory, 0, 4 * items.len() as u32, 0, 0] {
        image.extend(number.to_le_bytes());
    }
    for item in &items {
        let value = match item.label {
            None => item.value,
            Some(label) => i64::from(*labels.get(label).ok_or(item.line)?) - i64::from(item.at),
        };
        image.extend(filled(item.shape, item.word, value).ok_or(item.line)?.to_le_bytes());
    }
    Ok(image)
}

fn main() -> io::Result<()> {
    let mut source = String::new();
    io::stdin().read_to_string(&mut source)?;
    match assemble(&source) {
        Ok(image) => io::stdout().write_all(&image),
        Err(line) => Err(io::Error::other(format!("line {line}"))),
    }
}
