//! The original's walk on each request of standard input; the README has the form of a request.
use std::io::{self, Read, Write};
use std::process::ExitCode;

use oracle::analysis::functions::walk::{Answer, Request};

fn main() -> io::Result<ExitCode> {
    let (mut show_steps, mut show_errors, mut tag_alone) = (false, false, false);
    for argument in std::env::args().skip(1) {
        match argument.as_str() {
            "steps" => show_steps = true,
            "errors" => show_errors = true,
            "tag" => tag_alone = true,
            other => {
                eprintln!("walk [steps] [errors], or walk tag, not {other}");
                return Ok(ExitCode::FAILURE);
            }
        }
    }
    let mut input = Vec::new();
    io::stdin().read_to_end(&mut input)?;

    let mut out = io::BufWriter::new(io::stdout().lock());
    let mut rest = &input[..];
    while !rest.is_empty() {
        let Some(request) = Request::read(&mut rest) else {
            out.flush()?;
            eprintln!("not a request");
            return Ok(ExitCode::FAILURE);
        };
        if tag_alone {
            tag(&mut out, &request)?;
        } else {
            answer(&mut out, &request, show_steps, show_errors)?;
        }
        if !rest.is_empty() {
            writeln!(out)?;
        }
    }
    out.flush()?;
    Ok(ExitCode::SUCCESS)
}

fn answer(out: &mut impl Write, request: &Request, show_steps: bool, show_errors: bool) -> io::Result<()> {
    if let Some(number) = request.outside() {
        return writeln!(out, "outside {number}");
    }
    let walked = request.walk();
    if show_steps {
        for step in &walked.steps {
            write!(out, "step {:08x} {:08x}\n{}", step.address, step.next, step.lists)?;
        }
    }
    write!(out, "{}", walked.answer.text())?;
    if show_errors && let Answer::Refused { register, error, .. } = &walked.answer {
        if let Some(register) = register {
            writeln!(out, "register {register}")?;
        }
        writeln!(out, "error {error}")?;
    }
    Ok(())
}

fn tag(out: &mut impl Write, request: &Request) -> io::Result<()> {
    match request.outside() {
        Some(number) => writeln!(out, "outside {number}"),
        None => write!(out, "{}", request.walk().tag.expect("this is built with debug assertions")),
    }
}
