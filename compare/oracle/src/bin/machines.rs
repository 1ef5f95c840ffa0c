//! One step of one of the original's four small machines for each record of standard input; the README has the numbers' meaning.
use std::io::{self, BufWriter, Read, Write};
use std::panic;

use oracle::analysis::{
    function_branch::FunctionBranchState,
    functions::JumpTables,
    illegal_code::IllegalCodeState,
    inline_table::{InlineTable, InlineTableKind, InlineTableState},
    jump_table::{JumpTableState, JumpTableStateArm},
};
use unarm::{Ins, Reg, parse_arm};

/// A machine's state as numbers. Unused places are 0.
#[derive(Clone, Copy, Default)]
struct State {
    tag: u32,
    a: u32,
    b: u32,
    c: u32,
}

/// The state after the step, and what the machine's other methods say of it.
#[derive(Clone, Copy, Default)]
struct Answer {
    next: State,
    x: u32,
    y: u32,
}

/// The tag that stands for a sum that left its type.
const OVERFLOW: u32 = 0xFFFF_FFFF;

fn main() -> io::Result<()> {
    // An overflow is an answer here, not a failure; anything else ends the program with its message.
    panic::set_hook(Box::new(|_| {}));
    let mut input = Vec::new();
    io::stdin().read_to_end(&mut input)?;
    let (records, rest) = input.as_chunks::<32>();
    if !rest.is_empty() {
        fail("the input is not a whole number of records");
    }
    let mut out = BufWriter::new(io::stdout().lock());
    for record in records {
        let field = |i: usize| u32::from_be_bytes(record[4 * i..4 * i + 4].try_into().expect("four bytes"));
        let machine = field(0);
        let state = State { tag: field(1), a: field(2), b: field(3), c: field(4) };
        if field(5) != 0 {
            fail("Thumb is not decoded");
        }
        let address = field(6);
        let ins = parse_arm(field(7), address);
        let Answer { next, x, y } = step(machine, state, address, &ins);
        writeln!(out, "{machine:08x} {:08x} {:08x} {:08x} {:08x} {x:08x} {y:08x}", next.tag, next.a, next.b, next.c)?;
    }
    out.flush()
}

fn fail(message: &str) -> ! {
    eprintln!("{message}");
    std::process::exit(1)
}

fn step(machine: u32, state: State, address: u32, ins: &Ins) -> Answer {
    let run = || match machine {
        1 => illegal_code(state, ins),
        2 => function_branch(state, ins),
        3 => inline_table(state, address, ins),
        4 => jump_table(state, address, ins),
        _ => fail("machines are 1 to 4"),
    };
    panic::catch_unwind(run).unwrap_or_else(|payload| {
        let message = payload.downcast_ref::<&str>().copied().unwrap_or("");
        if !message.ends_with("with overflow") {
            fail(&format!("panic: {message}"));
        }
        Answer { next: State { tag: OVERFLOW, ..State::default() }, ..Answer::default() }
    })
}

fn reg(number: u32) -> Reg {
    Reg::from_number(number).unwrap_or_else(|| fail("registers are 0 to 15"))
}

const REASONS: [(u32, &str); 4] = [
    (5, "illegal opcode"),
    (6, "dereferencing shifted registers"),
    (7, "dereferencing registers offset by itself"),
    (8, "reading from PC into PC"),
];

fn illegal_code(state: State, ins: &Ins) -> Answer {
    let before = match state.tag {
        0 => IllegalCodeState::Start,
        1 => IllegalCodeState::ShiftedRegisterValue { reg: reg(state.a) },
        2 => match REASONS.iter().find(|(number, _)| *number == state.a) {
            Some((_, reason)) => IllegalCodeState::Illegal { reason },
            None => fail("reasons are 5 to 8"),
        },
        _ => fail("no such state"),
    };
    let (tag, a) = match before.handle(ins, false) {
        IllegalCodeState::Start => (0, 0),
        IllegalCodeState::ShiftedRegisterValue { reg } => (1, reg as u32),
        IllegalCodeState::Illegal { reason } => match REASONS.iter().find(|(_, text)| *text == reason) {
            Some((number, _)) => (2, *number),
            None => fail("a reason of Thumb"),
        },
    };
    Answer { next: State { tag, a, ..State::default() }, ..Answer::default() }
}

const BRANCH_STATES: [FunctionBranchState; 7] = [
    FunctionBranchState::Start,
    FunctionBranchState::Eors,
    FunctionBranchState::MovgePcLr,
    FunctionBranchState::MovFromSp,
    FunctionBranchState::LdrIpPc,
    FunctionBranchState::AddR0Ip,
    FunctionBranchState::FunctionBranch,
];

fn function_branch(state: State, ins: &Ins) -> Answer {
    let before = BRANCH_STATES.get(state.tag as usize).copied().unwrap_or_else(|| fail("no such state"));
    let after = before.handle(ins);
    let tag = BRANCH_STATES.iter().position(|&state| state == after).expect("all are listed") as u32;
    Answer { next: State { tag, ..State::default() }, x: after.is_function_branch() as u32, y: 0 }
}

fn inline_table(state: State, address: u32, ins: &Ins) -> Answer {
    let before = match state.tag {
        0 => InlineTableState::Start,
        1 => InlineTableState::SubPc { table_base: reg(state.a), table_address: state.b, size: state.c },
        2 => InlineTableState::ValidTable(InlineTable { address: state.a, size: state.b, kind: InlineTableKind::Byte }),
        _ => fail("no such state"),
    };
    let after = before.handle(false, address, ins);
    let next = match after {
        InlineTableState::Start => State::default(),
        InlineTableState::SubPc { table_base, table_address, size } => State { tag: 1, a: table_base as u32, b: table_address, c: size },
        InlineTableState::ValidTable(table) => State { tag: 2, a: table.address, b: table.size, c: 0 },
    };
    let (x, y) = after.get_table().map_or((0, 0), |table| (table.address, table.size));
    Answer { next, x, y }
}

fn jump_table(state: State, address: u32, ins: &Ins) -> Answer {
    let limit = state.b;
    let before = match state.tag {
        0 => JumpTableStateArm::CmpReg,
        1 => JumpTableStateArm::JumpOrBranchSigned { index: reg(state.a), limit },
        2 => JumpTableStateArm::SignedBaseline { index: reg(state.a), limit },
        3 => JumpTableStateArm::JumpSigned { index: reg(state.a), limit },
        4 => JumpTableStateArm::JumpAfterReturn { index: reg(state.a), limit },
        5 => JumpTableStateArm::ValidJumpTable { table_address: state.a, limit },
        _ => fail("no such state"),
    };
    let mut tables = JumpTables::new();
    let after = JumpTableState::Arm(before).handle(address, ins, &mut tables, &[None; 16]);
    let y = after.table_end_address().unwrap_or(0);
    let JumpTableState::Arm(arm) = after else { unreachable!("the mode stays") };
    let (tag, a, b) = match arm {
        JumpTableStateArm::CmpReg => (0, 0, 0),
        JumpTableStateArm::JumpOrBranchSigned { index, limit } => (1, index as u32, limit),
        JumpTableStateArm::SignedBaseline { index, limit } => (2, index as u32, limit),
        JumpTableStateArm::JumpSigned { index, limit } => (3, index as u32, limit),
        JumpTableStateArm::JumpAfterReturn { index, limit } => (4, index as u32, limit),
        JumpTableStateArm::ValidJumpTable { table_address, limit } => (5, table_address, limit),
    };
    let x = match tables.first_key_value() {
        None => 0,
        Some((key, table)) => {
            // The line has no room for the rest of the record, which follows from the state.
            assert!(tables.len() == 1 && table.address == *key && y == key + table.size, "a table unlike its state");
            *key
        }
    };
    Answer { next: State { tag, a, b, c: 0 }, x, y }
}
