//! A module's table, and its file: safe calls of the proved `cugbejin_append` and `cugbejin_write`. README.md has the file's form.
use crate::{Function, Lists, Refusal, numbers};

/// A function of a table: its four addresses, how many registers its first instruction saves, and how many entries of each kind are its own.
#[repr(C)]
#[derive(Clone, Copy, Debug, Default, PartialEq, Eq)]
pub struct FunctionRow {
    pub start: u32,
    pub end: u32,
    pub first_instruction: u32,
    pub last_instruction_end: u32,
    /// Not in the file.
    pub saved_registers: u32,
    pub labels: u32,
    pub pools: u32,
    pub jump_tables: u32,
    pub inline_tables: u32,
    pub calls: u32,
}

/// A table of `count` functions, in lists with room for more. A function's entries stand in each list after those of the one before. What stands
/// behind them is no part of the table.
#[derive(Debug, Default)]
pub struct Module<'a> {
    pub functions: &'a mut [FunctionRow],
    pub count: usize,
    pub entries: Lists<'a>,
}

#[rustfmt::skip]
unsafe extern "C" {
    #[allow(clippy::too_many_arguments)]
    fn cugbejin_append(
        start: u32, end: u32, first_instruction: u32, last_instruction_end: u32, saved_registers: u32,
        label_count: usize, pool_count: usize, jump_table_count: usize, inline_table_count: usize, call_count: usize,
        labels: *mut u32, labels_length: usize,
        pools: *mut u32, pools_length: usize,
        jump_tables: *mut u32, jump_tables_length: usize,
        inline_tables: *mut u32, inline_tables_length: usize,
        calls: *mut u32, calls_length: usize,
        functions: *mut u32, functions_length: usize, count: usize,
        table_labels: *mut u32, table_labels_length: usize,
        table_pools: *mut u32, table_pools_length: usize,
        table_jump_tables: *mut u32, table_jump_tables_length: usize,
        table_inline_tables: *mut u32, table_inline_tables_length: usize,
        table_calls: *mut u32, table_calls_length: usize,
    ) -> u32;

    #[allow(clippy::too_many_arguments)]
    fn cugbejin_write(
        functions: *const u32, functions_length: usize, count: usize,
        labels: *const u32, labels_length: usize,
        pools: *const u32, pools_length: usize,
        jump_tables: *const u32, jump_tables_length: usize,
        inline_tables: *const u32, inline_tables_length: usize,
        calls: *const u32, calls_length: usize,
        out: *mut u8, out_length: usize, length: *mut u64,
    ) -> u32;
}

/// A list's numbers, to be read.
fn shared<Row>(rows: &[Row]) -> (*const u32, usize) {
    (rows.as_ptr().cast(), size_of_val(rows) / size_of::<u32>())
}

/// 0 is no refusal. 4 and 18 carry no address.
fn answer(number: u32) -> Result<(), Refusal> {
    if number == 0 { Ok(()) } else { Err(Refusal { number, address: 0, register: 0 }) }
}

impl Module<'_> {
    /// Puts an accepted function, with the lists that its walk left, behind the table. Functions come by ascending first instruction. A refusal, 4 or
    /// 18, leaves the table as it was. The walk's lists are only read.
    #[rustfmt::skip]
    pub fn append(&mut self, function: &Function, lists: &mut Lists) -> Result<(), Refusal> {
        let (labels, labels_length) = numbers(lists.labels);
        let (pools, pools_length) = numbers(lists.pools);
        let (jump_tables, jump_tables_length) = numbers(lists.jump_tables);
        let (inline_tables, inline_tables_length) = numbers(lists.inline_tables);
        let (calls, calls_length) = numbers(lists.calls);
        let (functions, functions_length) = numbers(self.functions);
        let (table_labels, table_labels_length) = numbers(self.entries.labels);
        let (table_pools, table_pools_length) = numbers(self.entries.pools);
        let (table_jump_tables, table_jump_tables_length) = numbers(self.entries.jump_tables);
        let (table_inline_tables, table_inline_tables_length) = numbers(self.entries.inline_tables);
        let (table_calls, table_calls_length) = numbers(self.entries.calls);
        let counts = function.counts;
        // SAFETY: each pointer and length is that of a slice, and no two slices overlap, since each is lent mutably. A row is `repr(C)` and of `u32`
        // alone, so it is as aligned as one and has no padding.
        let number = unsafe {
            cugbejin_append(
                function.start, function.end, function.first_instruction, function.last_instruction_end, function.saved_registers,
                counts.labels, counts.pools, counts.jump_tables, counts.inline_tables, counts.calls,
                labels, labels_length,
                pools, pools_length,
                jump_tables, jump_tables_length,
                inline_tables, inline_tables_length,
                calls, calls_length,
                functions, functions_length, self.count,
                table_labels, table_labels_length,
                table_pools, table_pools_length,
                table_jump_tables, table_jump_tables_length,
                table_inline_tables, table_inline_tables_length,
                table_calls, table_calls_length,
            )
        };
        answer(number)?;
        self.count += 1;
        Ok(())
    }

    /// Writes the table's file to the start of `out`, and tells how many bytes it has. A refusal, 4 or 18, writes no byte.
    #[rustfmt::skip]
    pub fn write(&self, out: &mut [u8]) -> Result<usize, Refusal> {
        let (functions, functions_length) = shared(self.functions);
        let (labels, labels_length) = shared(self.entries.labels);
        let (pools, pools_length) = shared(self.entries.pools);
        let (jump_tables, jump_tables_length) = shared(self.entries.jump_tables);
        let (inline_tables, inline_tables_length) = shared(self.entries.inline_tables);
        let (calls, calls_length) = shared(self.entries.calls);
        let mut length = 0;
        // SAFETY: as in `append`; the lists are only read, and `out` overlaps none of them.
        let number = unsafe {
            cugbejin_write(
                functions, functions_length, self.count,
                labels, labels_length,
                pools, pools_length,
                jump_tables, jump_tables_length,
                inline_tables, inline_tables_length,
                calls, calls_length,
                out.as_mut_ptr(), out.len(), &mut length,
            )
        };
        answer(number)?;
        // At most the length of `out`.
        Ok(length as usize)
    }
}
