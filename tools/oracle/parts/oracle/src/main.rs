// Answers request lines with the Rust engine: a line in, a line out. docs/ORACLE.md says what the requests are.
mod fields;
mod positions;
mod program;
mod searches;

use std::io::{BufRead, Write};
use std::panic::{catch_unwind, AssertUnwindSafe};

// An answer, or why there is none.
type Answer = Result<String, String>;

fn guard<T>(f: impl FnOnce() -> T) -> Result<T, ()> {
    catch_unwind(AssertUnwindSafe(f)).map_err(|_| ())
}

// What `f` says, or PANIC where the Rust panics.
fn or_panic(f: impl FnOnce() -> String) -> String {
    guard(f).unwrap_or_else(|_| "PANIC".to_string())
}

fn answer(line: &str) -> Answer {
    let (kind, rest) = line.split_once('\t').unwrap_or((line, ""));
    let f: Vec<&str> = rest.split('\t').collect();
    match (kind, &f[..]) {
        ("play", [moves]) => positions::played(ultimattt::game::Game::new(), moves),
        ("from", [text, moves]) => positions::played(fields::position(text)?, moves),
        ("parse", _) => Ok(format!("ok {}", positions::description(&fields::position(rest)?))),
        ("move", _) => Ok(positions::move_text(rest)),
        ("status", [byte]) => positions::status(byte),
        ("merge", [a, b]) => positions::merged(a, b),
        ("won", [byte]) => positions::won(byte),
        ("cells", [text]) => positions::looked_up(text),
        ("coords", [board, cell]) => positions::move_bits(board, cell),
        ("equiv", [a, b]) => positions::equivalent(a, b),
        ("eval", [text, draw]) => positions::evaluation(text, draw),
        ("endgame", [text]) => positions::endgame(text),
        ("search", [text, depth, entries, draw]) => searches::search(text, depth, entries, draw, ""),
        ("search", [text, depth, entries, draw, answers]) => searches::search(text, depth, entries, draw, answers),
        ("searches", [entries, draw, asked @ ..]) => searches::chain(entries, draw, asked),
        ("stop", [text, depth, entries, draw, allowance]) => searches::stop(text, depth, entries, draw, allowance, ""),
        ("stop", [text, depth, entries, draw, allowance, answers]) => searches::stop(text, depth, entries, draw, allowance, answers),
        ("line", _) => program::line(rest),
        ("program", _) => Ok(program::answer(rest)),
        _ => Err("BADREQ".to_string()),
    }
}

fn answer_bytes(line: &[u8]) -> String {
    match std::str::from_utf8(line) {
        Err(_) => "NOTUTF8".to_string(),
        Ok(text) => or_panic(|| answer(text).unwrap_or_else(|why| why)),
    }
}

fn answer_lines() {
    let mut input = std::io::stdin().lock();
    let mut out = std::io::stdout().lock();
    let mut line = Vec::new();
    while input.read_until(b'\n', &mut line).unwrap() > 0 {
        if line.last() == Some(&b'\n') {
            line.pop();
        }
        writeln!(out, "{}", answer_bytes(&line)).unwrap();
        line.clear();
    }
}

// With a roomy stack, and silent about panics.
fn main() {
    std::panic::set_hook(Box::new(|_| {}));
    let thread = std::thread::Builder::new().stack_size(256 << 20).spawn(answer_lines);
    thread.unwrap().join().unwrap();
}
