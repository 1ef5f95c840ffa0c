//! Makes the table file of a module of any size: walks each start through the proved library, puts what is accepted in a table, and writes its file.
use cugbejin::module::{FunctionRow, Module};
use cugbejin::{Call, Function, Lists, Options, Pool, Refusal, Table, run};
use std::env;
use std::fs;
use std::io::{self, IsTerminal, Write};
use std::process::ExitCode;

const USAGE: &str = "usage: cugbejin-module [OPTION...] --starts STARTS FILE

Writes the table file of the ARM functions of FILE to standard output. STARTS has the address where each function starts, ascending: hexadecimal digits,
one address a line, with 0x before them or not.

  --base N           address of the first byte of FILE (0x02000000)
  --module-start N   first address of the module (the base)
  --module-end N     address past the module (past the last byte of FILE)
  --check            refuse a function that uses a register before it has a value
  --accepted         where starts are refused, write the table of the others all the same
  --out OUT          write to the file OUT in place of standard output
  --help             print this

Standard error has a line for each refused start: refused, the refusal's number, the instruction's address, and the start. Where there is one, nothing
is written and the status is 1, unless --accepted asks for the others. The status is 2 where an option or a file is wrong. A number is decimal, or
hexadecimal after 0x. With a terminal on standard error it shows how many starts are walked.";

const FULL: u32 = 13;
const NO_ROOM: u32 = 18;

/// The places of lists, which grow where they do not suffice.
#[derive(Default)]
struct Places {
    labels: Vec<u32>,
    pools: Vec<Pool>,
    jump_tables: Vec<Table>,
    inline_tables: Vec<Table>,
    calls: Vec<Call>,
}

impl Places {
    fn grow(&mut self) {
        let more = |places: usize| (2 * places).max(64);
        self.labels.resize(more(self.labels.len()), 0);
        self.pools.resize(more(self.pools.len()), Pool::default());
        self.jump_tables.resize(more(self.jump_tables.len()), Table::default());
        self.inline_tables.resize(more(self.inline_tables.len()), Table::default());
        self.calls.resize(more(self.calls.len()), Call::default());
    }

    fn lend(&mut self) -> Lists<'_> {
        Lists {
            labels: &mut self.labels,
            pools: &mut self.pools,
            jump_tables: &mut self.jump_tables,
            inline_tables: &mut self.inline_tables,
            calls: &mut self.calls,
        }
    }
}

#[derive(Default)]
struct Growing {
    functions: Vec<FunctionRow>,
    count: usize,
    entries: Places,
}

impl Growing {
    fn module(&mut self) -> Module<'_> {
        Module { functions: &mut self.functions, count: self.count, entries: self.entries.lend() }
    }

    fn append(&mut self, function: &Function, lists: &mut Lists) -> Result<(), Refusal> {
        loop {
            let mut module = self.module();
            match module.append(function, lists) {
                Err(refusal) if refusal.number == NO_ROOM => {
                    self.functions.resize((2 * self.functions.len()).max(64), FunctionRow::default());
                    self.entries.grow();
                }
                done => {
                    self.count = module.count;
                    return done;
                }
            }
        }
    }

    /// The file, in a buffer that has its length.
    fn file(&mut self) -> Result<Vec<u8>, Refusal> {
        let rows = &self.functions[..self.count];
        let bytes: usize = rows
            .iter()
            .map(|row| 36 + 4 * row.labels as usize + 9 * row.pools as usize + 8 * (row.jump_tables as usize + row.inline_tables as usize) + 13 * row.calls as usize)
            .sum();
        let mut out = vec![0; 9 + bytes];
        let length = self.module().write(&mut out)?;
        out.truncate(length);
        Ok(out)
    }
}

/// One start's walk, with as many places as it needs.
fn walk(options: Options, start: u32, code: &[u8], places: &mut Places) -> Result<Function, Refusal> {
    loop {
        match run(options, start, code, &[], &mut places.lend()) {
            Err(refusal) if refusal.number == FULL => places.grow(),
            answer => return answer,
        }
    }
}

fn number(option: &str, text: &str) -> Result<u32, String> {
    let parsed = match text.strip_prefix("0x") {
        Some(digits) => u32::from_str_radix(digits, 16),
        None => text.parse(),
    };
    parsed.map_err(|_| format!("{option}: not a number of 32 bits: {text}"))
}

fn starts_of(path: &str) -> Result<Vec<u32>, String> {
    let text = fs::read_to_string(path).map_err(|error| format!("{path}: {error}"))?;
    let mut starts: Vec<u32> = Vec::new();
    for line in text.lines() {
        let start = u32::from_str_radix(line.strip_prefix("0x").unwrap_or(line), 16).map_err(|_| format!("{path}: not a start: {line}"))?;
        if starts.last().is_some_and(|&last| start <= last) {
            return Err(format!("{path}: not ascending: {line}"));
        }
        starts.push(start);
    }
    Ok(starts)
}

#[derive(Default)]
struct Asked {
    base: Option<u32>,
    module_start: Option<u32>,
    module_end: Option<u32>,
    check: bool,
    accepted: bool,
    starts: Option<String>,
    out: Option<String>,
    file: Option<String>,
    help: bool,
}

fn asked() -> Result<Asked, String> {
    let mut asked = Asked::default();
    let mut words = env::args().skip(1);
    while let Some(word) = words.next() {
        let mut value = || words.next().ok_or(format!("{word}: its value is missing"));
        match word.as_str() {
            "--base" => asked.base = Some(number(&word, &value()?)?),
            "--module-start" => asked.module_start = Some(number(&word, &value()?)?),
            "--module-end" => asked.module_end = Some(number(&word, &value()?)?),
            "--starts" => asked.starts = Some(value()?),
            "--out" => asked.out = Some(value()?),
            "--check" => asked.check = true,
            "--accepted" => asked.accepted = true,
            "--help" => asked.help = true,
            _ if word.starts_with('-') => return Err(format!("unknown option: {word}")),
            _ if asked.file.is_some() => return Err(format!("more than one file: {word}")),
            _ => asked.file = Some(word),
        }
    }
    Ok(asked)
}

fn make() -> Result<ExitCode, String> {
    let asked = asked()?;
    if asked.help {
        println!("{USAGE}");
        return Ok(ExitCode::SUCCESS);
    }
    let file = asked.file.ok_or("which file? --help says more")?;
    let starts = starts_of(&asked.starts.ok_or("which starts? --help says more")?)?;
    let code = fs::read(&file).map_err(|error| format!("{file}: {error}"))?;
    let base = asked.base.unwrap_or(0x0200_0000);
    let end = u32::try_from(u64::from(base) + code.len() as u64).map_err(|_| "the code's end is above 32 bits")?;
    let options = Options {
        base,
        module_start: asked.module_start.unwrap_or(base),
        module_end: asked.module_end.unwrap_or(end),
        known_end: None,
        check: asked.check,
    };
    let shown = io::stderr().is_terminal();
    let (mut places, mut table, mut refused) = (Places::default(), Growing::default(), 0);
    for (done, &start) in starts.iter().enumerate() {
        if shown && done % 256 == 0 {
            eprint!("\r{done} of {} starts walked", starts.len());
        }
        let put = walk(options, start, &code, &mut places).and_then(|function| table.append(&function, &mut places.lend()));
        if let Err(refusal) = put {
            refused += 1;
            let newline = if shown { "\r" } else { "" };
            eprintln!("{newline}refused {} {:08x} {start:08x}", refusal.number, refusal.address);
        }
    }
    if shown {
        eprintln!("\r{} of {} starts walked", starts.len(), starts.len());
    }
    if refused > 0 && !asked.accepted {
        eprintln!("cugbejin-module: {refused} of {} starts refused, so no table is written; --accepted asks for that of the others", starts.len());
        return Ok(ExitCode::from(1));
    }
    let bytes = table.file().map_err(|refusal| format!("the table's length is above 32 bits (refused {})", refusal.number))?;
    match asked.out {
        Some(out) => fs::write(&out, &bytes).map_err(|error| format!("{out}: {error}"))?,
        None => io::stdout().write_all(&bytes).map_err(|error| format!("the table could not be written: {error}"))?,
    }
    Ok(ExitCode::SUCCESS)
}

fn main() -> ExitCode {
    make().unwrap_or_else(|message| {
        eprintln!("cugbejin-module: {message}");
        ExitCode::from(2)
    })
}
