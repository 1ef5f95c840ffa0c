//! Walks document 01's marked runs C1 to C12, its examples of the refusals 1 to 4 and 13, and functions that save registers. What is expected is typed
//! from 01's tables; what is saved is counted in the word. Each run is walked once more with its tag; the tags are worked out by hand: 100 for each byte
//! of an instruction, divided by the record's length.
use cugbejin::{Call, Counts, Function, Lists, Options, Percent, Pool, Refusal, Table, TagError, run, tag};

const BASE: u32 = 0x0200_0000;
const LOW: u32 = 0x01FF_8000;
const PLACES: usize = 4;
const ANYTHING: u32 = 7;

const C1: &[u32] = &[0xE59F_0000, 0xE12F_FF1E, 0x1234_5678];
const C3: &[u32] = &[0xE12F_FF1E];
const C8: &[u32] = &[0xE350_0002, 0x908F_F100, 0xEA00_0002, 0xEA00_0001, 0xEA00_0000, 0xEAFF_FFFF, 0xE12F_FF1E];
const C12: &[u32] = &[0xE1A0_0004, 0xE12F_FF1E];

type Answer = Result<Function, Refusal>;
type Tag = Result<(Function, Percent), TagError>;

#[derive(Clone, Copy, Debug, Default, PartialEq)]
struct Rows {
    labels: [u32; PLACES],
    pools: [Pool; PLACES],
    jump_tables: [Table; PLACES],
    inline_tables: [Table; PLACES],
    calls: [Call; PLACES],
}

impl Rows {
    /// What stands in the lists before a walk.
    fn before() -> Self {
        let table = Table { address: ANYTHING, size: ANYTHING };
        Rows {
            labels: [ANYTHING; PLACES],
            pools: [Pool { address: ANYTHING, value: ANYTHING, mark: ANYTHING }; PLACES],
            jump_tables: [table; PLACES],
            inline_tables: [table; PLACES],
            calls: [Call { address: ANYTHING, word: ANYTHING, destination: ANYTHING, mode: ANYTHING }; PLACES],
        }
    }

    fn lend(&mut self, label_places: usize) -> Lists<'_> {
        Lists {
            labels: &mut self.labels[..label_places],
            pools: &mut self.pools,
            jump_tables: &mut self.jump_tables,
            inline_tables: &mut self.inline_tables,
            calls: &mut self.calls,
        }
    }
}

/// The module is the code.
fn options(base: u32, words: &[u32]) -> Options {
    Options { base, module_start: base, module_end: base + 4 * words.len() as u32, known_end: None, check: false }
}

fn bytes(words: &[u32]) -> Vec<u8> {
    words.iter().flat_map(|word| word.to_le_bytes()).collect()
}

/// The walk with its tag comes to the same.
fn walk(options: Options, start: u32, words: &[u32], starts: &[u32], label_places: usize) -> (Answer, Rows) {
    let code = bytes(words);
    let mut rows = Rows::before();
    let answer = run(options, start, &code, starts, &mut rows.lend(label_places));
    let mut tag_rows = Rows::before();
    let tag = tag(options, start, &code, starts, &mut tag_rows.lend(label_places));
    assert_eq!((untagged(tag), tag_rows), (answer, rows));
    (answer, rows)
}

/// The walk's answer in that of its tag.
fn untagged(tag: Tag) -> Answer {
    match tag {
        Ok((function, _)) | Err(TagError::EmptyRecord(function)) => Ok(function),
        Err(TagError::Refused(refusal)) => Err(refusal),
    }
}

/// From the base, with no other starts.
fn whole(options: Options, words: &[u32]) -> (Answer, Rows) {
    walk(options, options.base, words, &[], PLACES)
}

fn function(end: u32, last: u32) -> Function {
    let counts = Counts { labels: 0, pools: 0, jump_tables: 0, inline_tables: 0, calls: 0 };
    Function { start: BASE, end: BASE + end, first_instruction: BASE, last_instruction_end: BASE + last, saved_registers: 0, counts }
}

fn refused(number: u32, address: u32, register: u32) -> (Answer, Rows) {
    (Err(Refusal { number, address, register }), Rows::default())
}

/// A function without entries.
fn bare(end: u32, last: u32) -> (Answer, Rows) {
    (Ok(function(end, last)), Rows::default())
}

/// One row, and zeros after it.
fn one<Row: Copy + Default>(row: Row) -> [Row; PLACES] {
    let mut rows = [Row::default(); PLACES];
    rows[0] = row;
    rows
}

fn one_pool(value: u32, mark: u32) -> (Answer, Rows) {
    let f = function(0x0C, 0x08);
    let found = Function { counts: Counts { pools: 1, ..f.counts }, ..f };
    (Ok(found), Rows { pools: one(Pool { address: BASE + 0x08, value, mark }), ..Rows::default() })
}

#[test]
fn c1_a_pool() {
    assert_eq!(whole(options(BASE, C1), C1), one_pool(0x1234_5678, 0));
}

#[test]
fn c2_past_the_module() {
    assert_eq!(whole(Options { module_end: BASE + 0x08, ..options(BASE, C1) }, C1), refused(14, 0, 0));
}

#[test]
fn c3_a_return() {
    assert_eq!(whole(options(BASE, C3), C3), bare(0x04, 0x04));
}

#[test]
fn c4_no_code() {
    assert_eq!(whole(options(BASE, &[]), &[]), refused(14, 0, 0));
}

#[test]
fn c5_a_branch_to_itself() {
    let words = &[0xEAFF_FFFE];
    assert_eq!(whole(options(BASE, words), words), bare(0x04, 0x04));
}

#[test]
fn c6_a_branch_outside() {
    let words = &[0x0AFF_FFFD];
    assert_eq!(whole(options(LOW, words), words), refused(9, LOW, 0));
}

#[test]
fn c7_a_call() {
    let words = &[0xEA00_003E, 0xE12F_FF1E];
    let f = function(0x08, 0x08);
    let found = Function { counts: Counts { calls: 1, ..f.counts }, ..f };
    let call = Call { address: BASE, word: 0xEA00_003E, destination: BASE + 0x100, mode: 0 };
    assert_eq!(whole(options(BASE, words), words), (Ok(found), Rows { calls: one(call), ..Rows::default() }));
}

#[test]
fn c8_a_jump_table() {
    let f = function(0x1C, 0x1C);
    let found = Function { counts: Counts { labels: 1, jump_tables: 1, ..f.counts }, ..f };
    let table = Table { address: BASE + 0x0C, size: 12 };
    let rows = Rows { labels: one(BASE + 0x18), jump_tables: one(table), ..Rows::default() };
    assert_eq!(whole(options(BASE, C8), C8), (Ok(found), rows));
}

#[test]
fn c9_a_called_pool() {
    let words = &[0xE59F_C000, 0xE12F_FF1C, 0x0000_0000];
    assert_eq!(whole(options(BASE, words), words), one_pool(0, 1));
}

#[test]
fn c10_no_table() {
    let words = &[0xE350_0000, 0xE350_0000, 0x908F_F100, 0xE12F_FF1E];
    assert_eq!(whole(options(BASE, words), words), bare(0x10, 0x10));
}

#[test]
fn c11_a_known_end() {
    let known = Options { module_end: BASE + 0x08, known_end: Some(BASE + 0x08), ..options(BASE, C3) };
    assert_eq!(whole(known, C3), bare(0x08, 0x04));
}

#[test]
fn c12_an_undefined_register() {
    assert_eq!(whole(options(BASE, C12), C12), bare(0x08, 0x08));
    assert_eq!(whole(Options { check: true, ..options(BASE, C12) }, C12), refused(11, BASE, 4));
}

/// push {r4, r5, r6, lr} and pop {r4, r5, r6, pc}; one of lr alone; a start that is none.
#[test]
fn saved_registers() {
    for (words, saved) in [([0xE92D_4070, 0xE8BD_8070], 4), ([0xE52D_E004, 0xE49D_F004], 1), ([0xE1A0_0000, 0xE8BD_8070], 0)] {
        let found = Function { saved_registers: saved, ..function(0x08, 0x08) };
        assert_eq!(whole(options(BASE, &words), &words), (Ok(found), Rows::default()));
    }
}

fn tagged(options: Options, words: &[u32]) -> Tag {
    tag(options, options.base, &bytes(words), &[], &mut Rows::before().lend(PLACES))
}

/// What a tag says of C3 with a known end.
fn tagged_to(end: u32) -> Tag {
    tagged(Options { module_end: BASE + 0x08, known_end: Some(end), ..options(BASE, C3) }, C3)
}

#[test]
fn tags() {
    let pool = Function { counts: Counts { pools: 1, ..function(0x0C, 0x08).counts }, ..function(0x0C, 0x08) };
    assert_eq!(tagged(options(BASE, C1), C1), Ok((pool, Percent { quotient: 66, remainder: 8 })));
    assert_eq!(tagged(options(BASE, C3), C3), Ok((function(0x04, 0x04), Percent { quotient: 100, remainder: 0 })));
}

#[test]
fn tags_with_a_known_end() {
    assert_eq!(tagged_to(BASE + 0x08), Ok((function(0x08, 0x04), Percent { quotient: 50, remainder: 0 })));
    assert_eq!(tagged_to(BASE + 0x01), Ok((function(0x01, 0x04), Percent { quotient: 400, remainder: 0 })));
}

#[test]
fn no_tag_of_an_empty_record() {
    assert_eq!(tagged_to(BASE), Err(TagError::EmptyRecord(function(0x00, 0x04))));
    assert_eq!(tagged_to(LOW), Err(TagError::EmptyRecord(Function { end: LOW, ..function(0x00, 0x04) })));
}

#[test]
fn no_tag_of_a_refused_walk() {
    assert_eq!(tagged(options(BASE, &[]), &[]), Err(TagError::Refused(Refusal { number: 14, address: 0, register: 0 })));
    assert_eq!(tagged(options(LOW - 4, C3), C3), Err(TagError::Refused(Refusal { number: 1, address: 0, register: 0 })));
}

/// 1 to 4 leave the lists as they were.
#[test]
fn refusals_before_the_walk() {
    let kept = |number| (Err(Refusal { number, address: 0, register: 0 }), Rows::before());
    assert_eq!(whole(options(LOW - 4, C3), C3), kept(1));
    assert_eq!(walk(options(BASE, C3), BASE + 0x08, C3, &[], PLACES), kept(2));
    assert_eq!(walk(options(BASE, C3), BASE + 0x02, C3, &[], PLACES), kept(3));
    assert_eq!(walk(options(BASE, C3), BASE, C3, &[5, 5], PLACES), kept(4));
}

/// C8 whose first branch, at 08, finds no place for its label. The other lists hold zeros; what lies past the empty one is not touched.
#[test]
fn refusal_13_zeroes_the_lists() {
    let (answer, rows) = walk(options(BASE, C8), BASE, C8, &[], 0);
    assert_eq!(answer, Err(Refusal { number: 13, address: BASE + 0x08, register: 0 }));
    assert_eq!(rows, Rows { labels: [ANYTHING; PLACES], ..Rows::default() });
}

/// Empty slices, whose pointers dangle.
#[test]
fn empty_lists() {
    let mut lists = Lists::default();
    assert_eq!(run(options(BASE, C3), BASE, &[0x1E, 0xFF, 0x2F, 0xE1], &[], &mut lists), Ok(function(0x04, 0x04)));
    assert_eq!(run(options(BASE, &[]), BASE, &[], &[], &mut lists), Err(Refusal { number: 14, address: 0, register: 0 }));
}
