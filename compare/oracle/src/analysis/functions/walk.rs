//! Runs the original's walk on a request and says what it found, in the words of the listing program.
//! It stands inside `functions`, since the walk's context and its loop are private there.
use std::cell::RefCell;
use std::collections::BTreeMap;
use std::fmt::Write;
use std::panic::{self, AssertUnwindSafe};

use ds_rom::crypto::dsprot;
use unarm::{ParseEndian, ParseMode, Parser, Reg};

use super::{
    Function, FunctionAnalysisError, FunctionCalls, FunctionParseOptions, InlineTables, IntoFunctionError, JumpTables, Labels,
    ParseFunctionContext, ParseFunctionError, ParseFunctionOptions, ParseFunctionState, PoolConstantUsage, PoolConstants, UNARM_OPTIONS,
};

const SOURCE: &str = include_str!(concat!(env!("ANALYSIS"), "/functions.rs"));

pub struct Request {
    pub base: u32,
    pub module_start: u32,
    pub module_end: u32,
    pub start: u32,
    pub known_end: Option<u32>,
    pub check: bool,
    pub existing_starts: Vec<u32>,
    pub code: Vec<u8>,
}

pub enum Answer {
    /// The listing's text.
    Record(String),
    Refused {
        number: u32,
        address: u32,
        register: Option<u32>,
        error: String,
    },
    /// A panic, with the number that stands for it where there is one.
    Panicked {
        number: Option<u32>,
        address: u32,
        message: String,
    },
}

/// An answer, the lists after each step before the one that ended the walk, and the tag's line.
pub struct Walked {
    pub steps: Vec<Step>,
    pub answer: Answer,
    /// None where steps are not counted, without debug assertions.
    pub tag: Option<String>,
}

pub struct Step {
    pub address: u32,
    pub next: u32,
    pub lists: String,
}

impl Request {
    /// Takes one request from the front.
    pub fn read(rest: &mut &[u8]) -> Option<Self> {
        let length = number(rest)? as usize;
        let (mut body, after) = rest.split_at_checked(length)?;
        *rest = after;
        let body = &mut body;
        let version = byte(body)?;
        let (base, module_start, module_end, start) = (number(body)?, number(body)?, number(body)?, number(body)?);
        let known_end = Some(number(body)?).filter(|&end| end != 0);
        let check = match byte(body)? {
            0 => false,
            1 => true,
            _ => return None,
        };
        let existing_starts = match version {
            1 => Vec::new(),
            2 => (0..number(body)?).map(|_| number(body)).collect::<Option<_>>()?,
            _ => return None,
        };
        Some(Self { base, module_start, module_end, start, known_end, check, existing_starts, code: body.to_vec() })
    }

    /// The refusal that the original has no check for, so that there is nothing to compare: numbers 1 to 4.
    pub fn outside(&self) -> Option<u32> {
        let program = 0x01FF_8000..=0x0300_0000;
        let code_end = self.base as u64 + self.code.len() as u64;
        let (top, module_end) = (*program.end(), self.module_end);
        if !program.contains(&self.base) || code_end > top as u64 || module_end > top || self.module_start > module_end {
            Some(1)
        } else if self.start < self.base || self.start as u64 > code_end {
            Some(2)
        } else if self.start % 4 != 0 {
            Some(3)
        } else if !self.existing_starts.is_sorted_by(|a, b| a < b) {
            Some(4)
        } else {
            None
        }
    }

    /// Walks twice: by the original's own loop, and step by step by the loop below. The two must agree.
    pub fn walk(&self) -> Walked {
        let existing = self.existing();
        let options = self.options(&existing);
        let found = BTreeMap::new();

        let mut notes = Notes { steps: Vec::new(), address: self.start, bytes: unarm::defs_calls().map(|_| 0) };
        let by_steps = caught(|| stepwise(self.parser(), &options, &found, &mut notes));
        let by_loop = caught(|| Function::function_parser_loop_inner(self.parser(), &options, &found));

        let Notes { steps, address, bytes } = notes;
        let percent = match &by_steps {
            Ok(Ok(function)) => bytes.map(|bytes| percent(function, bytes)),
            _ => None,
        };
        let saved = self.saved_registers();
        let answer = answer(by_steps, address, saved);
        assert_eq!(answer.text(), self::answer(by_loop, address, saved).text(), "the original's loop and the one here differ");
        // A walk that is refused has no tag but its refusal.
        let tag = percent.or_else(|| bytes.map(|_| answer.text()));
        Walked { steps, answer, tag }
    }

    /// How many registers the word at the start saves, by its fields, as an unconditional push of LR: the record's last field, which the original
    /// lacks. STMDB SP!, without the S bit and with LR in its list, and STR LR, [SP, #-4]!.
    fn saved_registers(&self) -> u32 {
        let code = &self.code[(self.start - self.base) as usize..];
        match code.first_chunk().map_or(0, |&bytes| u32::from_le_bytes(bytes)) {
            word if word >> 16 == 0xE92D && word & 1 << 14 != 0 => (word & 0xFFFF).count_ones(),
            0xE52D_E004 => 1,
            _ => 0,
        }
    }

    /// The original's own loop and nothing else, for timing.
    pub fn walk_once(&self, existing: &BTreeMap<u32, Function>) -> Result<Function, FunctionAnalysisError> {
        Function::function_parser_loop_inner(self.parser(), &self.options(existing), &BTreeMap::new())
    }

    /// Decodes every word of the code and does nothing else, for timing.
    pub fn decode(&self) {
        self.parser().for_each(|ins| drop(std::hint::black_box(ins)));
    }

    pub fn existing(&self) -> BTreeMap<u32, Function> {
        self.existing_starts.iter().map(|&start| (start, known_function(start))).collect()
    }

    fn options<'a>(&'a self, existing: &'a BTreeMap<u32, Function>) -> FunctionParseOptions<'a> {
        FunctionParseOptions {
            name: String::new(),
            start_address: self.start,
            base_address: self.base,
            module_code: &self.code,
            known_end_address: self.known_end,
            module_start_address: self.module_start,
            module_end_address: self.module_end,
            existing_functions: Some(existing),
            dsprot_encrypted_ranges: &[],
            check_defs_uses: self.check,
            parse_options: ParseFunctionOptions { thumb: Some(false) },
        }
    }

    /// As in `parse_function`.
    fn parser(&self) -> Parser<'_> {
        let start = (self.start - self.base) as usize;
        let mut parser = Parser::new(&self.code[start..], ParseMode::Arm, ParseEndian::Little, UNARM_OPTIONS.clone());
        parser.set_pc(self.start);
        parser
    }
}

fn byte(rest: &mut &[u8]) -> Option<u8> {
    let (&first, after) = rest.split_first()?;
    *rest = after;
    Some(first)
}

fn number(rest: &mut &[u8]) -> Option<u32> {
    let (&first, after) = rest.split_first_chunk()?;
    *rest = after;
    Some(u32::from_be_bytes(first))
}

/// What is noted of a walk on its way: the steps that went on, the address that it is at, and the bytes of its instructions.
struct Notes {
    steps: Vec<Step>,
    address: u32,
    /// None where they are not counted.
    bytes: Option<u32>,
}

/// What `function_parser_loop_inner` does after its start check, with notes.
fn stepwise(
    mut parser: Parser<'_>,
    options: &FunctionParseOptions,
    found: &BTreeMap<u32, Function>,
    notes: &mut Notes,
) -> Result<Function, FunctionAnalysisError> {
    let mut context = ParseFunctionContext::new(false, options, found);
    let ending = loop {
        let at = parser.pc();
        notes.address = at;
        // Without an end, this gives "no epilogue".
        let Some(ins) = parser.next() else { break ParseFunctionState::Done };
        let size = parser.pc() - at;
        let before = unarm::defs_calls();
        let state = context.handle_ins(&mut parser, at, ins, size);
        // The original asks what a word writes where it handles it as an instruction, and asks a word that it skips nothing. It leaves its end at
        // the word itself where that is the entry of the next function.
        let is_handled = unarm::defs_calls() != before;
        let is_next_entry = state.ended() && context.end_address == Some(at);
        if is_handled && !is_next_entry {
            notes.bytes = notes.bytes.map(|bytes| bytes + size);
        }
        if state.ended() {
            break state;
        }
        notes.steps.push(Step { address: at, next: parser.pc(), lists: context.lists() });
    };
    let mut function = context.into_function(ending)?;
    if let Some(&pool) = function.pool_constants.keys().next()
        && pool < function.start_address
    {
        function.first_instruction_address = function.start_address;
        function.start_address = pool;
    }
    Ok(function)
}

impl ParseFunctionContext<'_> {
    fn lists(&self) -> String {
        lists(&self.labels, &self.pool_constants, &self.jump_tables, &self.inline_tables, &self.function_calls)
    }
}

fn lists(
    labels: &Labels,
    pool_constants: &PoolConstants,
    jump_tables: &JumpTables,
    inline_tables: &InlineTables,
    function_calls: &FunctionCalls,
) -> String {
    let mut text = String::new();
    for address in labels {
        writeln!(text, "label {address:08x}").unwrap();
    }
    for (address, pool) in pool_constants {
        let mark = match pool.usage {
            PoolConstantUsage::Other => "other",
            PoolConstantUsage::Call => "call",
        };
        assert_eq!(*address, pool.address);
        writeln!(text, "pool {address:08x} {:08x} {mark}", pool.value).unwrap();
    }
    for (address, table) in jump_tables {
        assert_eq!(*address, table.address);
        writeln!(text, "jump {address:08x} {:08x}", table.size).unwrap();
    }
    for (address, table) in inline_tables {
        assert_eq!(*address, table.address);
        writeln!(text, "inline {address:08x} {:08x}", table.size).unwrap();
    }
    for (address, call) in function_calls {
        let mode = if call.thumb { "thumb" } else { "arm" };
        writeln!(text, "call {address:08x} {:08x} {:08x} {mode}", call.ins_code, call.address).unwrap();
    }
    text
}

fn record(function: &Function, saved: u32) -> String {
    format!(
        "function {:08x} {:08x} {:08x} {:08x} {saved:02}\n{}",
        function.start_address,
        function.end_address,
        function.first_instruction_address,
        function.last_instruction_address,
        lists(&function.labels, &function.pool_constants, &function.jump_tables, &function.inline_tables, &function.function_calls),
    )
}

/// The tag's line, of document 02: the instruction bytes as a percentage of the record's length, with the remainder.
fn percent(function: &Function, bytes: u32) -> String {
    match function.end_address.checked_sub(function.start_address).map(u64::from) {
        None | Some(0) => "refused 17 00000000\n".to_string(),
        Some(length) => {
            let hundredfold = u64::from(bytes) * 100;
            format!("tag {} {}\n", hundredfold / length, hundredfold % length)
        }
    }
}

impl Answer {
    /// The listing's text. A panic has a word of its own; its number is what the port refuses with.
    pub fn text(&self) -> String {
        match self {
            Self::Record(text) => text.clone(),
            Self::Refused { number, address, .. } => format!("refused {number} {address:08x}\n"),
            Self::Panicked { number, address, message } => {
                let number = number.map_or("?".to_string(), |number| number.to_string());
                format!("panic {number} {address:08x} {message}\n")
            }
        }
    }
}

type Caught = Result<Result<Function, FunctionAnalysisError>, Panic>;

fn answer(outcome: Caught, address: u32, saved: u32) -> Answer {
    match outcome {
        Ok(Ok(function)) => Answer::Record(record(&function, saved)),
        Ok(Err(FunctionAnalysisError::IntoFunction { source: IntoFunctionError::ParseFunction { source } })) => refused(source),
        Ok(Err(error)) => panic!("not expected here: {error}"),
        Err(panic) => Answer::Panicked { number: panic.number(), address, message: panic.message },
    }
}

const REASONS: [(&str, u32); 6] = [
    ("illegal opcode", 5),
    ("dereferencing shifted registers", 6),
    ("dereferencing registers offset by itself", 7),
    ("reading from PC into PC", 8),
    ("branch outside of program", 9),
    ("pool load goes outside module", 10),
];

fn refused(error: ParseFunctionError) -> Answer {
    let text = error.to_string();
    match error {
        ParseFunctionError::NoEpilogue => Answer::Refused { number: 14, address: 0, register: None, error: text },
        ParseFunctionError::IllegalIns { address, reason, .. } => {
            let register = (0..16).find(|&number| {
                let reg = Reg::from_number(number).expect("below 16");
                reason == format!("used {reg:?} when it has an undefined value")
            });
            let number = match register {
                Some(_) => 11,
                None => REASONS.iter().find(|(known, _)| *known == reason).expect("a reason of ARM mode").1,
            };
            Answer::Refused { number, address, register, error: text }
        }
        ParseFunctionError::InvalidStart { .. } => unreachable!("no start is refused here"),
    }
}

struct Panic {
    message: String,
    file: String,
    line: usize,
}

thread_local! {
    static LAST: RefCell<Option<Panic>> = const { RefCell::new(None) };
}

impl Panic {
    /// By the place: sums of tables are 12, pool words below the base or cut off by the code's end are 10.
    fn number(&self) -> Option<u32> {
        let table_sum = "table.address + table.size";
        let pool_offset = "pool_address - self.base_address";
        let name = self.file.rsplit('/').next().unwrap_or("");
        let text = SOURCE.lines().nth(self.line - 1).unwrap_or("");
        match name {
            "jump_table.rs" | "inline_table.rs" => Some(12),
            "functions.rs" if text.contains(table_sum) => Some(12),
            "functions.rs" if text.contains(pool_offset) => Some(10),
            "bytes.rs" => Some(10),
            _ => None,
        }
    }
}

/// A panic of the original is an answer: it is kept and not printed.
fn caught<T>(run: impl FnOnce() -> T) -> Result<T, Panic> {
    panic::set_hook(Box::new(|info| {
        let location = info.location().expect("every panic has a place");
        let message = info.payload_as_str().unwrap_or("").to_string();
        let kept = Panic { message, file: location.file().to_string(), line: location.line() as usize };
        LAST.with(|last| *last.borrow_mut() = Some(kept));
    }));
    let outcome = panic::catch_unwind(AssertUnwindSafe(run));
    drop(panic::take_hook());
    outcome.map_err(|_| LAST.with(|last| last.borrow_mut().take()).expect("the hook has kept it"))
}

/// An existing function, of which only the start is asked.
fn known_function(start: u32) -> Function {
    Function {
        name: String::new(),
        start_address: start,
        end_address: start,
        first_instruction_address: start,
        last_instruction_address: start,
        thumb: false,
        labels: Labels::new(),
        pool_constants: PoolConstants::new(),
        jump_tables: JumpTables::new(),
        inline_tables: InlineTables::new(),
        function_calls: FunctionCalls::new(),
        dsprot_encryption: dsprot::EncryptionType::None,
        dsprot_encrypted_ranges: Vec::new(),
    }
}
