//! A stand-in for the disassembler that the original uses: the names and shapes that the original's patterns ask for, with ARM
//! decoding as `crates/arm` of this repository defines it, so that both sides of a comparison see equal instructions.
//! Thumb is not decoded.
mod class;
mod decode;
mod parser;
mod registers;
pub mod sets;

pub use class::{Class, encoding};
pub use decode::{class_of, parse_arm};
pub use parser::{ParseEndian, ParseMode, Parser, parse_thumb};
pub use registers::{Reg, RegList, Registers};

/// The condition field. `Nv` is 1111, which holds unconditional instructions.
#[derive(Clone, Copy, PartialEq, Eq, Debug)]
pub enum Cond {
    Eq,
    Ne,
    Hs,
    Lo,
    Mi,
    Pl,
    Vs,
    Vc,
    Hi,
    Ls,
    Ge,
    Lt,
    Gt,
    Le,
    Al,
    Nv,
}

#[derive(Clone, Copy, PartialEq, Eq, Debug)]
pub enum ShiftOp {
    Lsl,
    Lsr,
    Asr,
    Ror,
    Rrx,
}

#[derive(Clone, Copy, PartialEq, Eq, Debug)]
pub struct Op2Imm {
    pub imm: u32,
    pub rotate_imm: u32,
}

#[derive(Clone, Copy, PartialEq, Eq, Debug)]
pub struct ShiftImm {
    pub rm: Reg,
    pub shift_op: ShiftOp,
    pub imm: u32,
}

#[derive(Clone, Copy, PartialEq, Eq, Debug)]
pub struct ShiftReg {
    pub rm: Reg,
    pub shift_op: ShiftOp,
    pub rs: Reg,
}

/// Addressing mode 1.
#[derive(Clone, Copy, PartialEq, Eq, Debug)]
pub enum Op2 {
    Imm(Op2Imm),
    ShiftImm(ShiftImm),
    ShiftReg(ShiftReg),
}

/// The amount of a shift that has a name of its own.
#[derive(Clone, Copy, PartialEq, Eq, Debug)]
pub enum Op2Shift {
    Imm(u32),
    Reg(Reg),
}

#[derive(Clone, Copy, PartialEq, Eq, Debug)]
pub enum LdrStrOffset {
    Imm(i32),
    Reg { subtract: bool, rm: Reg, shift_op: ShiftOp, imm: u32 },
}

/// Addressing mode 2. `Post` always writes its base back.
#[derive(Clone, Copy, PartialEq, Eq, Debug)]
pub enum AddrLdrStr {
    Pre { rn: Reg, offset: LdrStrOffset, writeback: bool },
    Post { rn: Reg, offset: LdrStrOffset },
}

impl AddrLdrStr {
    pub fn rn(&self) -> Reg {
        match *self {
            Self::Pre { rn, .. } | Self::Post { rn, .. } => rn,
        }
    }

    pub fn offset(&self) -> LdrStrOffset {
        match *self {
            Self::Pre { offset, .. } | Self::Post { offset, .. } => offset,
        }
    }
}

#[derive(Clone, Copy, PartialEq, Eq, Debug)]
pub enum MiscLoadOffset {
    Imm(i32),
    Reg { subtract: bool, rm: Reg },
}

/// Addressing mode 3.
#[derive(Clone, Copy, PartialEq, Eq, Debug)]
pub enum AddrMiscLoad {
    Pre { rn: Reg, offset: MiscLoadOffset, writeback: bool },
    Post { rn: Reg, offset: MiscLoadOffset },
}

/// Addressing mode 4.
#[derive(Clone, Copy, PartialEq, Eq, Debug)]
pub enum LdmStmMode {
    Da,
    Ia,
    Db,
    Ib,
}

#[derive(Clone, Copy, PartialEq, Eq, Debug)]
pub struct BranchTarget {
    pub addr: u32,
}

#[derive(Clone, Copy, PartialEq, Eq, Debug)]
pub enum BlxTarget {
    Direct(BranchTarget),
    Indirect(Reg),
}

/// The instructions whose operands the original looks into; the others are `Other`.
#[derive(Clone, PartialEq, Eq, Debug)]
pub enum Ins {
    Add { s: bool, thumb: bool, cond: Cond, rd: Reg, rn: Reg, op2: Op2 },
    Sub { s: bool, thumb: bool, cond: Cond, rd: Reg, rn: Reg, op2: Op2 },
    Eor { s: bool, thumb: bool, cond: Cond, rd: Reg, rn: Reg, op2: Op2 },
    Cmp { cond: Cond, rn: Reg, op2: Op2 },
    Mov { s: bool, thumb: bool, cond: Cond, rd: Reg, op2: Op2 },
    Lsl { s: bool, thumb: bool, cond: Cond, rd: Reg, rn: Reg, op2: Op2Shift },
    Lsr { s: bool, thumb: bool, cond: Cond, rd: Reg, rn: Reg, op2: Op2Shift },
    Asr { s: bool, thumb: bool, cond: Cond, rd: Reg, rn: Reg, op2: Op2Shift },
    Ror { s: bool, thumb: bool, cond: Cond, rd: Reg, rn: Reg, op2: Op2Shift },
    B { cond: Cond, target: BranchTarget },
    Bl { cond: Cond, target: BranchTarget },
    Blx { cond: Cond, target: BlxTarget },
    Bx { cond: Cond, rm: Reg },
    Ldr { cond: Cond, rd: Reg, addr: AddrLdrStr },
    Ldrb { cond: Cond, rd: Reg, addr: AddrLdrStr },
    Ldrh { cond: Cond, rd: Reg, addr: AddrMiscLoad },
    Str { cond: Cond, rd: Reg, addr: AddrLdrStr },
    Ldm { mode: LdmStmMode, cond: Cond, rn: Reg, writeback: bool, regs: RegList, user_mode: bool },
    Stm { mode: LdmStmMode, cond: Cond, rn: Reg, writeback: bool, regs: RegList, user_mode: bool },
    Push { cond: Cond, regs: RegList },
    Pop { cond: Cond, regs: RegList },
    Other { class: Class, cond: Cond, word: u32 },
    Illegal,
}

/// A register or several that an instruction reads or writes.
#[derive(Clone, Copy, PartialEq, Eq, Debug)]
pub enum DefUseArgument {
    Reg(Reg),
    RegList(RegList),
    /// Nothing here is of another kind, but the original has an arm for it.
    Unnamed,
}

/// What an instruction reads or writes. Nothing is put on the heap, so that the benchmark times the original and not its stand-in.
#[derive(Clone, Debug)]
pub struct Arguments {
    list: Option<RegList>,
    registers: Registers,
}

impl Iterator for Arguments {
    type Item = DefUseArgument;

    fn next(&mut self) -> Option<DefUseArgument> {
        match self.list.take() {
            Some(list) => Some(DefUseArgument::RegList(list)),
            None => self.registers.next().map(DefUseArgument::Reg),
        }
    }
}

#[cfg(debug_assertions)]
thread_local! {
    static DEFS_CALLS: std::cell::Cell<u64> = const { std::cell::Cell::new(0) };
}

/// How often `Ins::defs` was called. It is not counted where the original is timed, without debug assertions.
pub fn defs_calls() -> Option<u64> {
    #[cfg(debug_assertions)]
    return Some(DEFS_CALLS.get());
    #[cfg(not(debug_assertions))]
    return None;
}

impl Ins {
    /// A condition field other than 1110 and 1111.
    pub fn is_conditional(&self) -> bool {
        self.cond().is_some_and(|cond| cond != Cond::Al && cond != Cond::Nv)
    }

    /// In ascending order, so that the first one that fails a test is the lowest.
    pub fn uses(&self) -> Arguments {
        self.arguments(self.used(), matches!(self, Self::Stm { .. } | Self::Push { .. }))
    }

    pub fn defs(&self) -> Arguments {
        #[cfg(debug_assertions)]
        DEFS_CALLS.set(DEFS_CALLS.get() + 1);
        self.arguments(self.defined(), matches!(self, Self::Ldm { .. } | Self::Pop { .. }))
    }

    pub fn display(&self, _: &Options) -> String {
        format!("{self:?}")
    }

    /// Block transfers, pushes and pops give one list, all others register by register.
    fn arguments(&self, set: RegList, block: bool) -> Arguments {
        match block {
            true => Arguments { list: Some(set), registers: RegList(0).iter() },
            false => Arguments { list: None, registers: set.iter() },
        }
    }

    fn cond(&self) -> Option<Cond> {
        match *self {
            Self::Add { cond, .. }
            | Self::Sub { cond, .. }
            | Self::Eor { cond, .. }
            | Self::Cmp { cond, .. }
            | Self::Mov { cond, .. }
            | Self::Lsl { cond, .. }
            | Self::Lsr { cond, .. }
            | Self::Asr { cond, .. }
            | Self::Ror { cond, .. }
            | Self::B { cond, .. }
            | Self::Bl { cond, .. }
            | Self::Blx { cond, .. }
            | Self::Bx { cond, .. }
            | Self::Ldr { cond, .. }
            | Self::Ldrb { cond, .. }
            | Self::Ldrh { cond, .. }
            | Self::Str { cond, .. }
            | Self::Ldm { cond, .. }
            | Self::Stm { cond, .. }
            | Self::Push { cond, .. }
            | Self::Pop { cond, .. }
            | Self::Other { cond, .. } => Some(cond),
            Self::Illegal => None,
        }
    }
}

#[derive(Clone, Debug)]
pub struct Options {
    pub version: Version,
    pub extensions: Extensions,
    pub av: bool,
    pub r9_use: R9Use,
    pub sl: bool,
    pub fp: bool,
    pub ip: bool,
    pub ual: bool,
}

#[derive(Clone, Debug)]
pub enum Version {
    V5Te,
}

#[derive(Clone, Debug)]
pub struct Extensions(());

impl Extensions {
    pub const fn none() -> Self {
        Self(())
    }
}

#[derive(Clone, Debug)]
pub enum R9Use {
    R9,
}
