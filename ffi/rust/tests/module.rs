//! A module's table by safe calls: two functions put behind one another, and their file. The bytes are by hand, from the file's form.
use cugbejin::module::{FunctionRow, Module};
use cugbejin::{Call, Function, Lists, Options, Pool, Table, run};

const BASE: u32 = 0x0200_0000;
const WORDS: [u32; 5] = [0xE59F_0000, 0xE12F_FF1E, 0x1234_5678, 0xEA00_003C, 0xE12F_FF1E];
const ANYTHING: u32 = 7;

#[derive(Clone, Copy, Debug, Default, PartialEq)]
struct Rows {
    labels: [u32; 2],
    pools: [Pool; 2],
    jump_tables: [Table; 2],
    inline_tables: [Table; 2],
    calls: [Call; 2],
}

impl Rows {
    fn lend(&mut self) -> Lists<'_> {
        Lists {
            labels: &mut self.labels,
            pools: &mut self.pools,
            jump_tables: &mut self.jump_tables,
            inline_tables: &mut self.inline_tables,
            calls: &mut self.calls,
        }
    }
}

fn walk(start: u32, rows: &mut Rows) -> Function {
    let code: Vec<u8> = WORDS.iter().flat_map(|word| word.to_le_bytes()).collect();
    let options = Options { base: BASE, module_start: BASE, module_end: BASE + 20, known_end: None, check: false };
    run(options, start, &code, &[], &mut rows.lend()).unwrap()
}

fn before() -> Rows {
    Rows { pools: [Pool { address: ANYTHING, value: ANYTHING, mark: ANYTHING }; 2], labels: [ANYTHING; 2], ..Rows::default() }
}

fn numbers(numbers: &[u32]) -> Vec<u8> {
    numbers.iter().flat_map(|number| number.to_be_bytes()).collect()
}

/// The file of both: a pool word in the first one, a call in the second.
fn expected() -> Vec<u8> {
    let rest = [
        vec![1],
        numbers(&[2]),
        numbers(&[BASE, BASE + 12, BASE, BASE + 8, 0, 1, 0, 0, 0, BASE + 8, 0x1234_5678]),
        vec![0],
        numbers(&[BASE + 12, BASE + 20, BASE + 12, BASE + 20, 0, 0, 0, 0, 1, BASE + 12, 0xEA00_003C, BASE + 12 + 8 + 0xF0]),
        vec![0],
    ]
    .concat();
    [numbers(&[rest.len() as u32]), rest].concat()
}

#[test]
fn two_functions_and_their_file() {
    let (mut functions, mut entries, mut rows) = ([FunctionRow::default(); 2], before(), Rows::default());
    let mut table = Module { functions: &mut functions, count: 0, entries: entries.lend() };
    for start in [BASE, BASE + 12] {
        let function = walk(start, &mut rows);
        table.append(&function, &mut rows.lend()).unwrap();
    }
    assert_eq!(table.count, 2);
    let expected = expected();
    let mut out = vec![0xEE; expected.len() + 3];
    assert_eq!(table.write(&mut out), Ok(expected.len()));
    assert_eq!(out[..expected.len()], expected);
    assert_eq!(out[expected.len()..], [0xEE; 3]);
    // 18: one byte short
    let mut out = vec![0xEE; expected.len() - 1];
    assert_eq!(table.write(&mut out).unwrap_err().number, 18);
    assert!(out.iter().all(|&byte| byte == 0xEE));
}

#[test]
fn refusals_leave_the_table() {
    let (mut functions, mut entries, mut rows) = ([FunctionRow::default(); 1], before(), Rows::default());
    let function = walk(BASE, &mut rows);
    {
        let mut table = Module { functions: &mut functions, count: 0, entries: entries.lend() };
        table.append(&function, &mut rows.lend()).unwrap();
    }
    let (was, held) = (functions, entries);
    let mut table = Module { functions: &mut functions, count: 1, entries: entries.lend() };
    // 4: the first instruction is that of the last function, also where there is no place
    assert_eq!(table.append(&function, &mut rows.lend()).unwrap_err().number, 4);
    // 18: no place for a second function
    let second = walk(BASE + 12, &mut rows);
    assert_eq!(table.append(&second, &mut rows.lend()).unwrap_err().number, 18);
    // 4: a count above its list, in the walk's lists and in the table's
    let many = Function { counts: cugbejin::Counts { labels: 3, ..second.counts }, ..second };
    assert_eq!(table.append(&many, &mut rows.lend()).unwrap_err().number, 4);
    table.count = 2;
    assert_eq!(table.append(&second, &mut rows.lend()).unwrap_err().number, 4);
    assert_eq!(table.write(&mut [0; 200]).unwrap_err().number, 4);
    assert_eq!((functions, entries), (was, held));
    // what stands behind the entries is as it was
    assert_eq!(entries.labels, [ANYTHING; 2]);
    assert_eq!(entries.pools[1], Pool { address: ANYTHING, value: ANYTHING, mark: ANYTHING });
}
