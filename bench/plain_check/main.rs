//! A whole checker in plain Rust: the peer that `bench/run` compares the proved program with. It was written
//! from `docs/FORMATS.md`, and shares no code with the project. `rustc -O --edition 2024
//! bench/plain_check/main.rs` builds it.
//!
//! Usage: plain_check check [--workers N] | modules | migrate | run | value

mod borders;
mod certificate;
mod circuit;
mod digest;
mod jobs;
mod layout;
mod limits;
mod report;
mod running;
mod text;
mod whole;

use std::io::{Read, Write};
use std::process::ExitCode;

use certificate::Certificate;
use circuit::Circuit;
use layout::{Layout, Names};
use limits::{FRONT_LINE, Limits};
use text::{Lines, Refusal};

const REJECTED: u8 = 1;
const WRONG_WORDS: u8 = 2;
const REFUSED: u8 = 3;
const FAILED: u8 = 4;

/// What is written, and the exit status.
type Answer = (Vec<u8>, u8);

fn answer(out: String, is_good: bool) -> Answer {
    (out.into_bytes(), if is_good { 0 } else { REJECTED })
}

fn read_bundle(text: &[u8]) -> Result<(Circuit<'_>, Layout<'_>, Certificate), Refusal> {
    let mut lines = Lines::new(text);
    let circuit = Circuit::read(&mut lines)?;
    let layout = Layout::read(&mut lines, Names::Of(&circuit))?;
    let certificate = Certificate::read(&mut lines, &circuit, &layout)?;
    lines.finish()?;
    Ok((circuit, layout, certificate))
}

fn check(text: &[u8], workers: usize) -> Result<Answer, Refusal> {
    let (circuit, layout, certificate) = read_bundle(text)?;
    let (report, is_yes) = report::report(text, &circuit, &layout, &certificate, workers);
    Ok(answer(report, is_yes))
}

fn modules(text: &[u8]) -> Result<Answer, Refusal> {
    let (_, _, certificate) = read_bundle(text)?;
    Ok((certificate::print_modules(&certificate), 0))
}

fn migrate(text: &[u8]) -> Result<Answer, Refusal> {
    let (_, _, certificate) = read_bundle(text)?;
    Ok((certificate::migrate(text, &certificate), 0))
}

fn run(text: &[u8]) -> Result<Answer, Refusal> {
    let mut lines = Lines::new(text);
    let layout = Layout::read(&mut lines, Names::Any)?;
    let number_of = |name: &[u8]| layout.in_names.get(name).map(|&number| number as usize);
    let is_on = circuit::read_assign(&mut lines, layout.in_names.len(), number_of)?;
    lines.finish()?;
    let (out, is_inside) = whole::run(&layout, &is_on);
    Ok(answer(out, is_inside))
}

fn value(text: &[u8]) -> Result<Answer, Refusal> {
    let mut lines = Lines::new(text);
    let circuit = Circuit::read(&mut lines)?;
    let number_of = |name: &[u8]| circuit.input(name).map(usize::from);
    let is_on = circuit::read_assign(&mut lines, circuit.input_count, number_of)?;
    lines.finish()?;
    let (values, undefined) = circuit.values(&is_on);
    let mut out = Vec::new();
    for (name, value) in circuit.names.iter().zip(values) {
        out.extend_from_slice(name);
        out.extend_from_slice(if value { b" 1\n" } else { b" 0\n" });
    }
    if let Some(gate) = undefined {
        out.extend_from_slice(format!("undefined {gate}\n").as_bytes());
    }
    Ok((out, if undefined.is_some() { REJECTED } else { 0 }))
}

fn answer_of(words: &[&str], text: &[u8]) -> Option<Result<Answer, Refusal>> {
    Some(match words {
        ["check"] => check(text, 1),
        ["check", "--workers", count] => {
            let count = count.parse().ok().filter(|count| (1..=64).contains(count))?;
            check(text, count)
        }
        ["modules"] => modules(text),
        ["migrate"] => migrate(text),
        ["run"] => run(text),
        ["value"] => value(text),
        _ => return None,
    })
}

/// Reads standard input to its end, or a byte further than its first bytes allow. Returns whether it is not
/// too long.
fn read_text(text: &mut Vec<u8>) -> std::io::Result<bool> {
    let mut input = std::io::stdin().lock();
    input.by_ref().take(FRONT_LINE.len() as u64).read_to_end(text)?;
    let longest = Limits::of(text).text_bytes;
    input.take((longest + 1 - text.len()) as u64).read_to_end(text)?;
    Ok(text.len() <= longest)
}

fn main() -> ExitCode {
    let words: Vec<String> = std::env::args().skip(1).collect();
    let words: Vec<&str> = words.iter().map(String::as_str).collect();
    let mut text = Vec::new();
    let fault = match read_text(&mut text) {
        Err(_) => Some("read fault"),
        Ok(false) => Some("text too long"),
        Ok(true) => None,
    };
    if let Some(fault) = fault {
        eprintln!("bbmcheck: {fault}");
        return ExitCode::from(FAILED);
    }
    let Some(answer) = answer_of(&words, &text) else {
        eprintln!("usage: plain_check check [--workers N] | modules | migrate | run | value");
        return ExitCode::from(WRONG_WORDS);
    };
    let (out, status) = answer.unwrap_or_else(|Refusal { line, code }| {
        (format!("refused {line} {}\n", code as u8).into_bytes(), REFUSED)
    });
    if std::io::stdout().lock().write_all(&out).is_err() {
        eprintln!("bbmcheck: write fault");
        return ExitCode::from(FAILED);
    }
    ExitCode::from(status)
}
