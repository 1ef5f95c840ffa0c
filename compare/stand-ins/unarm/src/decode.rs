//! Operands and names: `operands.rt` and `offset.rt` of `crates/modes` and `naming.rt` of `crates/arm`, into the original's shapes.
use crate::class::{Class, encoding};
use crate::{
    AddrLdrStr, AddrMiscLoad, BlxTarget, BranchTarget, Cond, Ins, LdmStmMode, LdrStrOffset, MiscLoadOffset, Op2, Op2Imm, Op2Shift, Reg,
    RegList, ShiftImm, ShiftOp, ShiftReg,
};

const CONDS: [Cond; 16] = [
    Cond::Eq,
    Cond::Ne,
    Cond::Hs,
    Cond::Lo,
    Cond::Mi,
    Cond::Pl,
    Cond::Vs,
    Cond::Vc,
    Cond::Hi,
    Cond::Ls,
    Cond::Ge,
    Cond::Lt,
    Cond::Gt,
    Cond::Le,
    Cond::Al,
    Cond::Nv,
];

fn bit(word: u32, place: u32) -> bool {
    word >> place & 1 == 1
}

fn reg(word: u32, place: u32) -> Reg {
    Reg::from_number(word >> place & 15).expect("four bits name a register")
}

/// The class of a word: the manual's, but for the names of shifts and of pushes and pops.
pub fn class_of(word: u32) -> Class {
    let class = encoding(word);
    match class {
        Class::Mov => mov_name(op2(word)),
        // Bits 24 to 16: STMDB and LDMIA with SP written back and S clear.
        Class::Stm if word >> 16 & 0x1FF == 0b1_0010_1101 => Class::Push,
        Class::Ldm if word >> 16 & 0x1FF == 0b0_1011_1101 => Class::Pop,
        // All but the condition and Rd: STR Rd, [SP, #-4]! and LDR Rd, [SP], #4.
        Class::Str if word & 0x0FFF_0FFF == 0x052D_0004 => Class::Push,
        Class::Ldr if word & 0x0FFF_0FFF == 0x049D_0004 => Class::Pop,
        _ => class,
    }
}

/// The register list of a block transfer (bits 27 to 25 are 100), or the one register of a push or a pop that is a single transfer.
fn regs(word: u32) -> RegList {
    if word >> 25 & 7 == 0b100 { RegList((word & 0xFFFF) as u16) } else { reg(word, 12).into() }
}

fn mov_name(op2: Op2) -> Class {
    let shift_op = match op2 {
        Op2::Imm(_) | Op2::ShiftImm(ShiftImm { imm: 0, .. }) => return Class::Mov,
        Op2::ShiftImm(shift) => shift.shift_op,
        Op2::ShiftReg(shift) => shift.shift_op,
    };
    match shift_op {
        ShiftOp::Lsl => Class::Lsl,
        ShiftOp::Lsr => Class::Lsr,
        ShiftOp::Asr => Class::Asr,
        ShiftOp::Ror => Class::Ror,
        ShiftOp::Rrx => Class::Mov,
    }
}

fn shift_op(word: u32) -> ShiftOp {
    match word >> 5 & 3 {
        0 => ShiftOp::Lsl,
        1 => ShiftOp::Lsr,
        2 => ShiftOp::Asr,
        _ => ShiftOp::Ror,
    }
}

/// An amount field of 0 stands for LSL #0, LSR #32, ASR #32 and RRX.
fn shift_imm(word: u32) -> ShiftImm {
    let (shift_op, imm) = match (shift_op(word), word >> 7 & 31) {
        (ShiftOp::Lsr, 0) => (ShiftOp::Lsr, 32),
        (ShiftOp::Asr, 0) => (ShiftOp::Asr, 32),
        (ShiftOp::Ror, 0) => (ShiftOp::Rrx, 1),
        given => given,
    };
    ShiftImm { rm: reg(word, 0), shift_op, imm }
}

fn op2(word: u32) -> Op2 {
    if bit(word, 25) {
        let rotate_imm = 2 * (word >> 8 & 15);
        return Op2::Imm(Op2Imm { imm: (word & 0xFF).rotate_right(rotate_imm), rotate_imm });
    }
    if bit(word, 4) {
        return Op2::ShiftReg(ShiftReg { rm: reg(word, 0), shift_op: shift_op(word), rs: reg(word, 8) });
    }
    Op2::ShiftImm(shift_imm(word))
}

/// The register and the amount of a MOV that is named by its shift.
fn shifted(word: u32) -> (Reg, Op2Shift) {
    match op2(word) {
        Op2::ShiftImm(shift) => (shift.rm, Op2Shift::Imm(shift.imm)),
        Op2::ShiftReg(shift) => (shift.rm, Op2Shift::Reg(shift.rs)),
        Op2::Imm(_) => unreachable!("an immediate is not shifted"),
    }
}

fn signed(size: u32, up: bool) -> i32 {
    if up { size as i32 } else { -(size as i32) }
}

fn addr(word: u32) -> AddrLdrStr {
    let rn = reg(word, 16);
    let offset = if bit(word, 25) {
        let ShiftImm { rm, shift_op, imm } = shift_imm(word);
        LdrStrOffset::Reg { subtract: !bit(word, 23), rm, shift_op, imm }
    } else {
        LdrStrOffset::Imm(signed(word & 0xFFF, bit(word, 23)))
    };
    if bit(word, 24) { AddrLdrStr::Pre { rn, offset, writeback: bit(word, 21) } } else { AddrLdrStr::Post { rn, offset } }
}

fn misc_addr(word: u32) -> AddrMiscLoad {
    let rn = reg(word, 16);
    let offset = if bit(word, 22) {
        MiscLoadOffset::Imm(signed(word >> 4 & 0xF0 | word & 15, bit(word, 23)))
    } else {
        MiscLoadOffset::Reg { subtract: !bit(word, 23), rm: reg(word, 0) }
    };
    if bit(word, 24) { AddrMiscLoad::Pre { rn, offset, writeback: bit(word, 21) } } else { AddrMiscLoad::Post { rn, offset } }
}

fn mode(word: u32) -> LdmStmMode {
    match word >> 23 & 3 {
        0 => LdmStmMode::Da,
        1 => LdmStmMode::Ia,
        2 => LdmStmMode::Db,
        _ => LdmStmMode::Ib,
    }
}

/// Modulo 2^32. BLX with an immediate (condition 1111) can go to a halfword, by bit 24.
fn target(word: u32, address: u32) -> BranchTarget {
    let offset = (word << 8) as i32 >> 8;
    let extra = if word >> 28 == 15 { 2 * (word >> 24 & 1) } else { 0 };
    BranchTarget { addr: address.wrapping_add(8).wrapping_add_signed(offset << 2).wrapping_add(extra) }
}

/// The instruction that a word is at an address.
pub fn parse_arm(word: u32, address: u32) -> Ins {
    let class = class_of(word);
    let cond = CONDS[(word >> 28) as usize];
    let (thumb, s) = (false, bit(word, 20));
    let (rd, rn) = (reg(word, 12), reg(word, 16));
    let regs = regs(word);
    let (writeback, user_mode) = (bit(word, 21), bit(word, 22));
    match class {
        Class::Add => Ins::Add { s, thumb, cond, rd, rn, op2: op2(word) },
        Class::Sub => Ins::Sub { s, thumb, cond, rd, rn, op2: op2(word) },
        Class::Eor => Ins::Eor { s, thumb, cond, rd, rn, op2: op2(word) },
        Class::Cmp => Ins::Cmp { cond, rn, op2: op2(word) },
        Class::Mov => Ins::Mov { s, thumb, cond, rd, op2: op2(word) },
        Class::Lsl | Class::Lsr | Class::Asr | Class::Ror => {
            let (rn, op2) = shifted(word);
            match class {
                Class::Lsl => Ins::Lsl { s, thumb, cond, rd, rn, op2 },
                Class::Lsr => Ins::Lsr { s, thumb, cond, rd, rn, op2 },
                Class::Asr => Ins::Asr { s, thumb, cond, rd, rn, op2 },
                _ => Ins::Ror { s, thumb, cond, rd, rn, op2 },
            }
        }
        Class::B => Ins::B { cond, target: target(word, address) },
        Class::Bl => Ins::Bl { cond, target: target(word, address) },
        Class::Blx1 => Ins::Blx { cond, target: BlxTarget::Direct(target(word, address)) },
        Class::Blx2 => Ins::Blx { cond, target: BlxTarget::Indirect(reg(word, 0)) },
        Class::Bx => Ins::Bx { cond, rm: reg(word, 0) },
        Class::Ldr => Ins::Ldr { cond, rd, addr: addr(word) },
        Class::Ldrb => Ins::Ldrb { cond, rd, addr: addr(word) },
        Class::Ldrh => Ins::Ldrh { cond, rd, addr: misc_addr(word) },
        Class::Str => Ins::Str { cond, rd, addr: addr(word) },
        Class::Ldm => Ins::Ldm { mode: mode(word), cond, rn, writeback, regs, user_mode },
        Class::Stm => Ins::Stm { mode: mode(word), cond, rn, writeback, regs, user_mode },
        Class::Push => Ins::Push { cond, regs },
        Class::Pop => Ins::Pop { cond, regs },
        Class::Illegal => Ins::Illegal,
        class => Ins::Other { class, cond, word },
    }
}
