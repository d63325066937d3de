// What the driver wants of the search's private parts: a child of `minimax`, so it sees them.
use super::*;
use std::panic::{catch_unwind, AssertUnwindSafe};

#[derive(Clone)]
pub struct S {
    pub depth: i64,
    pub score: i64,
    pub visited: i64,
    pub terminal: i64,
    pub cuts: i64,
    pub tt_hit: i64,
    pub tt_suffice: i64,
}

impl S {
    pub fn text(&self) -> String {
        format!(
            "{},{},{},{},{},{},{}",
            self.depth, self.score, self.visited, self.terminal, self.cuts, self.tt_hit, self.tt_suffice
        )
    }
}

pub fn stats(s: &Stats) -> S {
    S {
        depth: s.depth,
        score: s.score,
        visited: s.visited,
        terminal: s.terminal,
        cuts: s.cuts,
        tt_hit: s.tt_hit,
        tt_suffice: s.tt_suffice,
    }
}

pub fn config(entries: usize, draw: Option<game::Player>, depth: Option<i64>) -> Config {
    Config {
        max_depth: depth,
        limit: None,
        debug: 0,
        table_bytes: if entries == 0 {
            None
        } else {
            Some(entries * (1 + std::mem::size_of::<Entry>()))
        },
        draw_winner: draw,
    }
}

pub fn set_depth(m: &mut Minimax, depth: Option<i64>) {
    m.config.max_depth = depth;
}

pub fn table_len(m: &Minimax) -> usize {
    m.table.as_ref().map(|t| t.oracle_entries().len()).unwrap_or(0)
}

pub fn responses(m: &Minimax) -> Vec<u8> {
    let mut v = Vec::new();
    for r in m.response.iter() {
        for x in r.moves.iter() {
            v.push(x.bits());
        }
    }
    v
}

pub fn set_response_raw(m: &mut Minimax, side: usize, at: u8, global: usize, local: usize) {
    m.response[side].moves[at as usize] = game::Move::from_coords(global, local);
}

// The words of document 01: hash; value; depth + 256 bound + 65536 move.
pub fn words(m: &Minimax) -> Vec<u64> {
    let mut v = Vec::new();
    if let Some(t) = &m.table {
        for e in t.oracle_entries() {
            if table::Entry::valid(e) {
                v.push(e.hash);
                v.push(e.value as u64);
                v.push(e.depth as u64 + 256 * (e.bound as u8 as u64) + 65536 * (e.pv.bits() as u64));
            } else {
                v.extend_from_slice(&[0, 0, 0]);
            }
        }
    }
    v
}

pub struct Stopped {
    pub stopped: bool,
    pub count: i64,
    pub pv: Vec<game::Move>,
    pub stats: Vec<S>,
    pub broken: bool,
}

// `analyze` with an allowance, for the build with overflow checks: `visited`
// begins so high that entering one position more than allowed overflows it, which
// unwinds out of the unchanged `minimax` with nothing stored on the way.
pub fn analyze_stop(m: &mut Minimax, g: &game::Game, max_depth: i64, allowance: i64) -> Stopped {
    let mut out = Stopped {
        stopped: false,
        count: 0,
        pv: Vec::new(),
        stats: Vec::new(),
        broken: false,
    };
    let mut pv: Vec<game::Move> = Vec::new();
    let mut depth: i64 = 0;
    loop {
        depth += 1;
        let start = i64::MAX - (allowance - out.count);
        m.stats = Stats {
            depth: depth,
            visited: start,
            ..Default::default()
        };
        pv.resize(depth as usize, game::Move::none());
        let r = catch_unwind(AssertUnwindSafe(|| {
            m.minimax(
                g,
                depth,
                EVAL_LOST - 1,
                EVAL_WON + 1,
                pv.as_mut_slice(),
                game::Move::none(),
            )
        }));
        match r {
            Ok(score) => {
                m.stats.score = score;
                m.stats.visited -= start;
                out.count += m.stats.visited;
                out.stats.push(stats(&m.stats));
                out.pv = pv.clone();
            }
            Err(_) => {
                out.broken = m.stats.visited != i64::MAX;
                out.count = allowance;
                out.stopped = true;
                return out;
            }
        }
        if depth >= max_depth {
            return out;
        }
        if m.stats.score <= EVAL_LOST || m.stats.score >= EVAL_WON {
            return out;
        }
    }
}
