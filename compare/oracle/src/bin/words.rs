//! Shows what the stand-in's decoder makes of words, in the texts of this repository's `decode`, `replay` and `ranges` programs, so
//! that the two decoders can be compared. `words check` compares the stand-in's two readings of every word.
use std::io::{self, BufWriter, Read, Write};

use unarm::{AddrLdrStr, BlxTarget, Class, Ins, LdrStrOffset, Op2, class_of, encoding, parse_arm, sets};

const CONDS: [&str; 16] = ["eq", "ne", "cs", "cc", "mi", "pl", "vs", "vc", "hi", "ls", "ge", "lt", "gt", "le", "al", "nv"];

fn main() -> io::Result<()> {
    let what = std::env::args().nth(1).unwrap_or_default();
    match what.as_str() {
        "decode" => lines(4, |out, n| {
            let ins = parse_arm(n[0], 0);
            let flag = if ins.updates_condition_flags() { 's' } else { '-' };
            let cond = CONDS[(n[0] >> 28) as usize];
            writeln!(out, "{:08x} {} {cond} {:04x} {:04x} {flag}", n[0], name(n[0]), ins.used().0, ins.defined().0)
        }),
        "classes" => lines(4, |out, n| writeln!(out, "{:08x} {}", n[0], name(n[0]))),
        "ranges" => lines(8, |out, n| {
            writeln!(out, "{:08x} {:08x} {:08x} {:08x} {:08x}", n[0], n[1], target(n[0], n[1]), offset(n[0]), immediate(n[0]))
        }),
        "check" => {
            check();
            Ok(())
        }
        _ => panic!("words decode, classes, ranges (each reads big-endian words) or check"),
    }
}

/// A line for each record of standard input.
fn lines(size: usize, line: impl Fn(&mut BufWriter<io::StdoutLock>, &[u32]) -> io::Result<()>) -> io::Result<()> {
    let mut input = Vec::new();
    io::stdin().read_to_end(&mut input)?;
    let mut out = BufWriter::new(io::stdout().lock());
    for record in input.chunks_exact(size) {
        let numbers: Vec<u32> = record.as_chunks().0.iter().map(|bytes| u32::from_be_bytes(*bytes)).collect();
        line(&mut out, &numbers)?;
    }
    out.flush()
}

fn name(word: u32) -> String {
    format!("{:?}", class_of(word)).to_uppercase()
}

/// Where a branch with these bits goes, whatever the word's class: the classes that branch are asked with the same low bits.
fn target(word: u32, address: u32) -> u32 {
    let branch = if word >> 28 == 15 { 0xFA00_0000 | word & 0x1FF_FFFF } else { 0xEA00_0000 | word & 0xFF_FFFF };
    match parse_arm(branch, address) {
        Ins::B { target, .. } | Ins::Blx { target: BlxTarget::Direct(target), .. } => target.addr,
        _ => unreachable!("a branch"),
    }
}

/// The immediate offset of a load with these bits; 0 for a register offset.
fn offset(word: u32) -> u32 {
    if word >> 25 & 1 == 1 {
        return 0;
    }
    let load = 0xE510_0000 | word & 0x80_0FFF;
    match parse_arm(load, 0) {
        Ins::Ldr { addr: AddrLdrStr::Pre { offset: LdrStrOffset::Imm(offset), .. }, .. } => offset as u32,
        _ => unreachable!("a load"),
    }
}

/// The immediate operand of these bits, likewise.
fn immediate(word: u32) -> u32 {
    if word >> 25 & 1 == 0 {
        return 0;
    }
    match parse_arm(0xE280_0000 | word & 0xFFF, 0) {
        Ins::Add { op2: Op2::Imm(operand), .. } => operand.imm,
        _ => unreachable!("an addition"),
    }
}

/// For every word: the sets and the flag that follow from an instruction's operands, whatever its name, are those of the manual's instruction
/// by its word; it is conditional exactly where the field is below 1110; and a push or a pop has the list of a block transfer, or the one
/// register of a single one. An illegal word has no condition left.
fn check() {
    for word in 0..=u32::MAX {
        let ins = parse_arm(word, 0x0200_0000);
        let class = class_of(word);
        let form = sets::form(encoding(word));
        assert_eq!(ins.used().0, sets::uses(form, word), "{word:08x}");
        assert_eq!(ins.defined().0, sets::defs(form, word), "{word:08x}");
        assert_eq!(ins.updates_condition_flags(), sets::updates_condition_flags(form, word), "{word:08x}");
        assert_eq!(ins.is_conditional(), class != Class::Illegal && word >> 28 < 14, "{word:08x}");
        if let Ins::Push { regs, .. } | Ins::Pop { regs, .. } = ins {
            let list = if word >> 27 & 1 == 1 { word as u16 } else { 1 << (word >> 12 & 15) };
            assert_eq!(regs.0, list, "{word:08x}");
        }
    }
    println!("4294967296 words");
}
