#[derive(Clone, Copy, PartialEq, Eq, PartialOrd, Ord, Debug)]
pub enum Reg {
    R0,
    R1,
    R2,
    R3,
    R4,
    R5,
    R6,
    R7,
    R8,
    R9,
    R10,
    R11,
    R12,
    Sp,
    Lr,
    Pc,
}

const REGS: [Reg; 16] = [
    Reg::R0,
    Reg::R1,
    Reg::R2,
    Reg::R3,
    Reg::R4,
    Reg::R5,
    Reg::R6,
    Reg::R7,
    Reg::R8,
    Reg::R9,
    Reg::R10,
    Reg::R11,
    Reg::R12,
    Reg::Sp,
    Reg::Lr,
    Reg::Pc,
];

impl Reg {
    pub fn from_number(number: u32) -> Option<Self> {
        REGS.get(number as usize).copied()
    }
}

/// A set of registers, bit r for register r.
#[derive(Clone, Copy, PartialEq, Eq, Debug)]
pub struct RegList(pub u16);

impl RegList {
    pub fn contains(&self, reg: Reg) -> bool {
        self.0 & RegList::from(reg).0 != 0
    }

    pub fn iter(&self) -> Registers {
        Registers(self.0)
    }
}

/// The registers of a set, ascending.
#[derive(Clone, Debug)]
pub struct Registers(u16);

impl Iterator for Registers {
    type Item = Reg;

    fn next(&mut self) -> Option<Reg> {
        let reg = Reg::from_number(self.0.trailing_zeros())?;
        self.0 &= self.0 - 1;
        Some(reg)
    }
}

impl From<Reg> for RegList {
    fn from(reg: Reg) -> Self {
        Self(1 << reg as u16)
    }
}

impl std::ops::BitOr for RegList {
    type Output = Self;

    fn bitor(self, other: Self) -> Self {
        Self(self.0 | other.0)
    }
}
