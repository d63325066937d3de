// Lines of the program.
use crate::fields::{move_letters, number, or_dash, position};
use crate::positions::sound;
use crate::{or_panic, Answer};
use ultimattt::endgame::Analysis;
use ultimattt::game::Game;
use ultimattt::minimax::{probe, Minimax};
use ultimattt_stop::minimax::probe as stop_probe;

const ALLOWANCE: i64 = 1_000_000;

// Moves up to the first empty one.
fn line_text(bits: impl Iterator<Item = u8>) -> String {
    or_dash(bits.take_while(|b| *b != 0xff).map(move_letters).collect())
}

fn status(g: &Game) -> String {
    or_panic(|| {
        let set = Analysis::new(g, &mut Default::default()).status().as_byte();
        "XOD".chars().enumerate().filter(|(i, _)| set >> i & 1 == 1).map(|(_, letter)| letter).collect()
    })
}

fn listed(g: &Game) -> String {
    or_panic(|| g.all_moves().count().to_string())
}

// The Rust's own answer, which knows no refusals but those of `parse`, and no allowance.
pub fn line(text: &str) -> Answer {
    let (text, depth) = text.rsplit_once(' ').ok_or("BADREQ no blank")?;
    let depth: i64 = number(depth)?;
    let g = position(text)?;
    let search = or_panic(|| {
        let mut m = Minimax::with_config(&probe::config(0, None, Some(depth)));
        let (line, stats) = m.analyze(&g);
        let visited: i64 = stats.iter().map(|s| probe::stats(s).visited).sum();
        let last = probe::stats(stats.last().unwrap());
        format!("{} {} {} {}", last.depth, last.score, visited, line_text(line.iter().map(|m| m.bits())))
    });
    Ok(format!("{} {} {}", status(&g), listed(&g), search))
}

// Document 01's refusal for the Rust's error.
fn refusal(error: &str) -> String {
    let kinds = ["MissingSection", "BadPlayer", "TooFewSquares", "BadBoard", "TooShort"];
    match kinds.iter().position(|kind| error.split(' ').nth(1) == Some(kind)) {
        Some(k) => format!("E {}", k + 2),
        None => own("E 5".to_string()),
    }
}

// Marks an answer that document 01 gives where the Rust has another or none.
fn own(answer: String) -> String {
    answer + "\t01"
}

// Document 01's answer to a line: its exceptions are put in here and marked, all the rest is the Rust's.
pub fn answer(line: &str) -> String {
    let (text, digits) = line.rsplit_once(' ').unwrap_or((line, ""));
    if !(1..=2).contains(&digits.len()) || !digits.bytes().all(|c| c.is_ascii_digit()) {
        return own("E 19".to_string());
    }
    if text.len() > 256 {
        return own("E 1".to_string());
    }
    match position(text) {
        Ok(g) => searched(text, &g, digits.parse().unwrap()),
        Err(error) => refusal(&error),
    }
}

fn searched(text: &str, g: &Game, depth: i64) -> String {
    if !g.game_over() && !sound(g) {
        return own("E 14".to_string());
    }
    if !(1..=81).contains(&depth) {
        return own("E 15".to_string());
    }
    let same = ultimattt_stop::game::notation::parse(text).unwrap();
    let mut m = ultimattt_stop::minimax::Minimax::with_config(&stop_probe::config(0, None, None));
    let found = stop_probe::analyze_stop(&mut m, &same, depth, ALLOWANCE);
    assert!(!found.broken);
    let Some(last) = found.stats.last() else {
        return own("E 18".to_string());
    };
    let count = if g.game_over() { "0".to_string() } else { listed(g) };
    let line = line_text(found.pv.iter().map(|m| m.bits()));
    let text = format!("{} {} {} {} {} {}", status(g), count, last.depth, last.score, found.count, line);
    if g.game_over() || found.stopped {
        own(text)
    } else {
        text
    }
}
