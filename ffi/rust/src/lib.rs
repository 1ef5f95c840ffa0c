//! One function's walk, from an accepted start to its record or a refusal, and its tag: safe calls of the proved `cugbejin_run` and `cugbejin_tag`.
//! Every input gets an answer; `cugbejin.h` and docs/REFUSALS.md have the refusals.

pub mod module;

/// The host's choices for a walk.
#[derive(Clone, Copy, Debug)]
pub struct Options {
    pub base: u32,
    pub module_start: u32,
    pub module_end: u32,
    pub known_end: Option<u32>,
    /// Refuse a use of an undefined register.
    pub check: bool,
}

/// A pool word.
#[repr(C)]
#[derive(Clone, Copy, Debug, Default, PartialEq, Eq)]
pub struct Pool {
    pub address: u32,
    pub value: u32,
    /// 1 for one that is called, else 0.
    pub mark: u32,
}

/// A jump table or an inline table.
#[repr(C)]
#[derive(Clone, Copy, Debug, Default, PartialEq, Eq)]
pub struct Table {
    pub address: u32,
    /// In bytes.
    pub size: u32,
}

#[repr(C)]
#[derive(Clone, Copy, Debug, Default, PartialEq, Eq)]
pub struct Call {
    pub address: u32,
    /// The instruction.
    pub word: u32,
    pub destination: u32,
    /// 0 for ARM, 1 for Thumb.
    pub mode: u32,
}

/// The lists that a walk fills, ascending by address, with zeros after the last row. The default has no room.
#[derive(Debug, Default)]
pub struct Lists<'a> {
    pub labels: &'a mut [u32],
    pub pools: &'a mut [Pool],
    pub jump_tables: &'a mut [Table],
    pub inline_tables: &'a mut [Table],
    pub calls: &'a mut [Call],
}

/// The rows of each list.
#[derive(Clone, Copy, Debug, PartialEq, Eq)]
pub struct Counts {
    pub labels: usize,
    pub pools: usize,
    pub jump_tables: usize,
    pub inline_tables: usize,
    pub calls: usize,
}

/// An accepted function.
#[derive(Clone, Copy, Debug, PartialEq, Eq)]
pub struct Function {
    pub start: u32,
    pub end: u32,
    pub first_instruction: u32,
    pub last_instruction_end: u32,
    /// By the first instruction; 0 where that is no unconditional push of LR.
    pub saved_registers: u32,
    pub counts: Counts,
}

/// Numbers 1 to 4 leave every list as it was, 5 to 14 leave zeros.
#[derive(Clone, Copy, Debug, PartialEq, Eq)]
pub struct Refusal {
    pub number: u32,
    /// Of the instruction; 0 with 1 to 4 and 14.
    pub address: u32,
    /// The lowest register that is undefined and used, with number 11; else 0.
    pub register: u32,
}

/// A function's tag: its instructions' bytes × 100, divided by the record's length, which is `end - start`.
#[repr(C)]
#[derive(Clone, Copy, Debug, Default, PartialEq, Eq)]
pub struct Percent {
    pub quotient: u64,
    /// Below the length.
    pub remainder: u64,
}

/// Why there is no tag.
#[derive(Clone, Copy, Debug, PartialEq, Eq)]
pub enum TagError {
    /// The walk was refused.
    Refused(Refusal),
    /// Number 17: the function is accepted, but its end is not above its start, as a known end may have it. The lists hold its entries.
    EmptyRecord(Function),
}

/// What is returned for an accepted function without a tag.
const EMPTY_RECORD: u32 = 17;

/// As `struct cugbejin_answer`.
#[repr(C)]
#[derive(Default)]
struct Answer {
    number: u64,
    address: u64,
    register: u64,
    start: u64,
    end: u64,
    first_instruction: u64,
    last_instruction_end: u64,
    saved_registers: u64,
    labels: u64,
    pools: u64,
    jump_tables: u64,
    inline_tables: u64,
    calls: u64,
}

#[rustfmt::skip]
unsafe extern "C" {
    #[allow(clippy::too_many_arguments)]
    fn cugbejin_run(
        base: u32, module_start: u32, module_end: u32, start: u32, known: u32, known_end: u32, check: u32,
        code: *const u8, code_length: usize,
        starts: *const u32, starts_length: usize,
        labels: *mut u32, labels_length: usize,
        pools: *mut u32, pools_length: usize,
        jump_tables: *mut u32, jump_tables_length: usize,
        inline_tables: *mut u32, inline_tables_length: usize,
        calls: *mut u32, calls_length: usize,
        answer: *mut Answer,
    ) -> u32;

    #[allow(clippy::too_many_arguments)]
    fn cugbejin_tag(
        base: u32, module_start: u32, module_end: u32, start: u32, known: u32, known_end: u32, check: u32,
        code: *const u8, code_length: usize,
        starts: *const u32, starts_length: usize,
        labels: *mut u32, labels_length: usize,
        pools: *mut u32, pools_length: usize,
        jump_tables: *mut u32, jump_tables_length: usize,
        inline_tables: *mut u32, inline_tables_length: usize,
        calls: *mut u32, calls_length: usize,
        answer: *mut Answer,
        percent: *mut Percent,
    ) -> u32;
}

/// A list's numbers, one row after another, and how many: a row is nothing but numbers of 32 bits.
fn numbers<Row>(rows: &mut [Row]) -> (*mut u32, usize) {
    (rows.as_mut_ptr().cast(), size_of_val(rows) / size_of::<u32>())
}

/// The number that a proved function returns for a walk. Behind the walk stand the places for what it tells.
macro_rules! number {
    ($function:ident, $options:ident, $start:ident, $code:ident, $starts:ident, $lists:ident, $($told:ident),+) => {{
        let (labels, labels_length) = numbers($lists.labels);
        let (pools, pools_length) = numbers($lists.pools);
        let (jump_tables, jump_tables_length) = numbers($lists.jump_tables);
        let (inline_tables, inline_tables_length) = numbers($lists.inline_tables);
        let (calls, calls_length) = numbers($lists.calls);
        // SAFETY: each pointer and length is that of a slice, so it is no null pointer, and no two slices that are written overlap. A row is
        // `repr(C)` and of `u32` alone, so it is as aligned as one and has no padding. What is told goes into locals of the caller.
        unsafe {
            $function(
                $options.base, $options.module_start, $options.module_end, $start,
                u32::from($options.known_end.is_some()), $options.known_end.unwrap_or(0), u32::from($options.check),
                $code.as_ptr(), $code.len(),
                $starts.as_ptr(), $starts.len(),
                labels, labels_length,
                pools, pools_length,
                jump_tables, jump_tables_length,
                inline_tables, inline_tables_length,
                calls, calls_length,
                $(&mut $told),+
            )
        }
    }};
}

/// Walks one ARM function from `start`. `starts` are those of other functions, strictly ascending.
pub fn run(options: Options, start: u32, code: &[u8], starts: &[u32], lists: &mut Lists) -> Result<Function, Refusal> {
    let mut answer = Answer::default();
    match number!(cugbejin_run, options, start, code, starts, lists, answer) {
        0 => Ok(answer.function()),
        _ => Err(answer.refusal()),
    }
}

/// Walks one ARM function as `run` does, to the same function or refusal and the same lists, and gives its tag.
pub fn tag(options: Options, start: u32, code: &[u8], starts: &[u32], lists: &mut Lists) -> Result<(Function, Percent), TagError> {
    let mut answer = Answer::default();
    let mut percent = Percent::default();
    match number!(cugbejin_tag, options, start, code, starts, lists, answer, percent) {
        0 => Ok((answer.function(), percent)),
        EMPTY_RECORD => Err(TagError::EmptyRecord(answer.function())),
        _ => Err(TagError::Refused(answer.refusal())),
    }
}

// Each number was widened from 32 bits or fewer, and a count from a usize.
impl Answer {
    fn function(&self) -> Function {
        Function {
            start: self.start as u32,
            end: self.end as u32,
            first_instruction: self.first_instruction as u32,
            last_instruction_end: self.last_instruction_end as u32,
            saved_registers: self.saved_registers as u32,
            counts: Counts {
                labels: self.labels as usize,
                pools: self.pools as usize,
                jump_tables: self.jump_tables as usize,
                inline_tables: self.inline_tables as usize,
                calls: self.calls as usize,
            },
        }
    }

    fn refusal(&self) -> Refusal {
        Refusal { number: self.number as u32, address: self.address as u32, register: self.register as u32 }
    }
}
