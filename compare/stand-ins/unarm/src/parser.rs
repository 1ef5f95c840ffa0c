use crate::{Ins, Options, parse_arm};

#[derive(Clone, Copy, PartialEq, Eq, Debug)]
pub enum ParseMode {
    Arm,
    Thumb,
}

#[derive(Clone, Copy, PartialEq, Eq, Debug)]
pub enum ParseEndian {
    Little,
}

/// A code and an address in it. It reads four little-endian bytes at any address; with fewer left there is no instruction.
pub struct Parser<'a> {
    code: &'a [u8],
    mode: ParseMode,
    /// The address of the code's first byte.
    base: u32,
    pc: u32,
}

impl<'a> Parser<'a> {
    pub fn new(code: &'a [u8], mode: ParseMode, _: ParseEndian, _: Options) -> Self {
        Self { code, mode, base: 0, pc: 0 }
    }

    pub fn mode(&self) -> ParseMode {
        self.mode
    }

    pub fn pc(&self) -> u32 {
        self.pc
    }

    /// Renames the present place.
    pub fn set_pc(&mut self, pc: u32) {
        self.base = pc - (self.pc - self.base);
        self.pc = pc;
    }

    /// Moves to another place.
    pub fn goto(&mut self, pc: u32) {
        self.pc = pc;
    }
}

impl Iterator for Parser<'_> {
    type Item = Ins;

    fn next(&mut self) -> Option<Ins> {
        assert!(self.mode == ParseMode::Arm, "Thumb is not decoded");
        let offset = (self.pc - self.base) as usize;
        let bytes = self.code.get(offset..)?.first_chunk()?;
        let ins = parse_arm(u32::from_le_bytes(*bytes), self.pc);
        self.pc += 4;
        Some(ins)
    }
}

pub fn parse_thumb(_: u32, _: u32, _: &Options) -> (Ins, u32) {
    unimplemented!("Thumb is not decoded")
}
