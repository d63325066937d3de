// Searches: alone, several with one memory, and with an allowance.
use crate::fields::{all_moves, answers, draw, number, or_dash, position};
use crate::{or_panic, Answer};
use ultimattt::game::Game;
use ultimattt::minimax::{probe, Minimax};
use ultimattt_stop::game as stop_game;
use ultimattt_stop::minimax::probe as stop_probe;

// FNV-1a, 64 bits.
fn digest(bytes: impl Iterator<Item = u8>) -> u64 {
    bytes.fold(0xcbf29ce484222325, |h, b| (h ^ b as u64).wrapping_mul(0x100000001b3))
}

// Digests of the remembered answers and of the table's words, and how many of each there are.
fn memory(answers: &[u8], words: &[u64]) -> String {
    format!(
        "resp={:016x} nresp={} table={:016x} used={}",
        digest(answers.iter().copied()),
        answers.iter().filter(|b| **b != 0xff).count(),
        digest(words.iter().flat_map(|w| w.to_le_bytes())),
        words.chunks(3).filter(|entry| entry[2] != 0).count()
    )
}

fn one(m: &mut Minimax, g: &Game, depth: i64) -> String {
    probe::set_depth(m, Some(depth));
    or_panic(|| {
        let (line, stats) = m.analyze(g);
        let depths: Vec<String> = stats.iter().map(|s| probe::stats(s).text()).collect();
        let line: Vec<u8> = line.iter().map(|m| m.bits()).collect();
        format!("{} pv={} {}", depths.join(";"), all_moves(&line), memory(&probe::responses(m), &probe::words(m)))
    })
}

pub fn search(text: &str, depth: &str, entries: &str, winner: &str, begin: &str) -> Answer {
    let g = position(text)?;
    let mut m = Minimax::with_config(&probe::config(number(entries)?, draw(winner)?, None));
    for (side, at, board, cell) in answers(begin)? {
        probe::set_response_raw(&mut m, side, at, board, cell);
    }
    Ok(one(&mut m, &g, number(depth)?))
}

// Positions and depths by turns, searched with one memory.
pub fn chain(entries: &str, winner: &str, asked: &[&str]) -> Answer {
    let mut m = Minimax::with_config(&probe::config(number(entries)?, draw(winner)?, None));
    let mut found = Vec::new();
    for ask in asked.chunks(2) {
        found.push(one(&mut m, &position(ask[0])?, number(ask[1])?));
    }
    Ok(found.join(" | "))
}

pub fn stop(text: &str, depth: &str, entries: &str, winner: &str, allowance: &str, begin: &str) -> Answer {
    position(text)?;
    let g = stop_game::notation::parse(text).unwrap();
    let winner = draw(winner)?.map(|p| [stop_game::Player::X, stop_game::Player::O][p.as_bit()]);
    let mut m = ultimattt_stop::minimax::Minimax::with_config(&stop_probe::config(number(entries)?, winner, None));
    for (side, at, board, cell) in answers(begin)? {
        stop_probe::set_response_raw(&mut m, side, at, board, cell);
    }
    let (depth, allowance) = (number(depth)?, number(allowance)?);
    let found = stop_probe::analyze_stop(&mut m, &g, depth, allowance);
    assert!(!found.broken);
    let depths: Vec<String> = found.stats.iter().map(|s| s.text()).collect();
    let line: Vec<u8> = found.pv.iter().map(|m| m.bits()).collect();
    Ok(format!(
        "stopped={} count={} {} pv={} {}",
        found.stopped as u8,
        found.count,
        or_dash(depths.join(";")),
        or_dash(all_moves(&line)),
        memory(&stop_probe::responses(&m), &stop_probe::words(&m))
    ))
}
