//! Positions a second of the proved engine and of the Rust engine, by turns in one process, on the same searches.
//!
//! usage: bench times ROUNDS            a row for each search, in processor time: medians of ROUNDS and their ratio, and the ratio of the best
//!        bench rows                    the rows, one to a line: name, depth, entries
//!        bench one ENGINE NAME DEPTH ENTRIES     one search, for a count of its instructions; ENGINE is rust or proved
use engine::game::notation;
use engine::minimax::{probe, Minimax};
use proved::{Memory, Position, Settings, Weights};

const EMPTY: &str = "X;.........;........./........./........./........./........./........./........./........./.........";
// after 12, 24 and 36 moves played at random
const AFTER_12: &str = "X;@........;........./O......O./......OO./..X....../........./........./.X.....O./.XXO..XX./.........";
const AFTER_24: &str = "X;.@.....X.;..XX...../.......OO/.X....O../O...O..../...X..XO./.X......./....X.OOX/....O.XXX/.OO..O..X";
const AFTER_36: &str = "X;..@.X....;XOO...OO./X....O.../X..X.O.../..OOOXXO./..XO.X..X/OX.XO..OX/X.OX.X.../...XXO.X./....O.O..";

const SEARCHES: [(&str, &str, u64); 7] = [
    ("empty", EMPTY, 6),
    ("empty", EMPTY, 7),
    ("empty", EMPTY, 8),
    ("empty", EMPTY, 9),
    ("after-12", AFTER_12, 9),
    ("after-24", AFTER_24, 9),
    ("after-36", AFTER_36, 9),
];

const ENTRIES: [usize; 3] = [0, 1000, 65536];

// At least so long is each engine measured in a round.
const SHORTEST: f64 = 0.2;

extern "C" {
    fn clock_gettime(clock: i32, time: *mut [i64; 2]) -> i32;
}

/// Seconds of processor time of this thread.
fn now() -> f64 {
    const CLOCK_THREAD_CPUTIME_ID: i32 = 3;
    let mut time = [0; 2];
    assert_eq!(unsafe { clock_gettime(CLOCK_THREAD_CPUTIME_ID, &mut time) }, 0);
    time[0] as f64 + time[1] as f64 / 1e9
}

/// What a search says: positions entered over all depths, and the score.
type Said = (u64, i64);

#[no_mangle]
#[inline(never)]
pub extern "C" fn search_rust(minimax: &mut Minimax, game: &engine::game::Game, said: &mut Said) {
    let (_, stats) = minimax.analyze(game);
    let visited = stats.iter().map(|s| probe::stats(s).visited as u64).sum();
    *said = (visited, stats.last().map_or(0, |s| probe::stats(s).score));
}

#[no_mangle]
#[inline(never)]
pub extern "C" fn search_proved(memory: &mut Memory, position: &Position, depth: u64, said: &mut Said) {
    let settings = Settings { depth, allowance: 1_000_000_000, draw_winner: None, weights: Weights::default() };
    let report = proved::analyze(position, &[], settings, memory);
    assert_eq!(report.number, 0);
    *said = (report.count, report.score);
}

/// One search from fresh memory, which is made before the clock starts.
fn rust(text: &str, depth: u64, entries: usize) -> (Said, f64) {
    let game = notation::parse(text).ok().expect("a position");
    let mut minimax = Minimax::with_config(&probe::config(entries, None, Some(depth as i64)));
    let mut said = (0, 0);
    let start = now();
    search_rust(&mut minimax, &game, &mut said);
    (said, now() - start)
}

fn proved(text: &str, depth: u64, entries: usize) -> (Said, f64) {
    let position = Position::read(text.as_bytes()).expect("a position");
    let mut memory = Memory::new(entries);
    let mut said = (0, 0);
    let start = now();
    search_proved(&mut memory, &position, depth, &mut said);
    (said, now() - start)
}

fn engine_of(name: &str) -> fn(&str, u64, usize) -> (Said, f64) {
    match name {
        "rust" => rust,
        "proved" => proved,
        _ => panic!("no engine {name}"),
    }
}

/// Positions a second of one round: the search again and again until it has taken long enough.
fn speed(search: fn(&str, u64, usize) -> (Said, f64), text: &str, depth: u64, entries: usize) -> (Said, f64) {
    let (said, mut spent) = search(text, depth, entries);
    let mut times = 1;
    while spent < SHORTEST {
        let (again, took) = search(text, depth, entries);
        assert_eq!(again, said);
        spent += took;
        times += 1;
    }
    (said, said.0 as f64 * times as f64 / spent)
}

fn median(mut of: Vec<f64>) -> f64 {
    of.sort_by(f64::total_cmp);
    of[of.len() / 2]
}

fn most(of: &[f64]) -> f64 {
    of.iter().cloned().fold(0.0, f64::max)
}

fn summary(of: &[f64]) -> String {
    let low = of.iter().cloned().fold(f64::INFINITY, f64::min);
    let mean = of.iter().sum::<f64>() / of.len() as f64;
    format!("{low:.2} to {:.2}, mean {mean:.2}", most(of))
}

fn times(rounds: usize) {
    println!(
        "{:<9} {:>5} {:>7} {:>10} {:>9} {:>11} {:>6} {:>6}",
        "position", "depth", "entries", "positions", "Rust M/s", "proved M/s", "ratio", "best"
    );
    let mut ratios = (Vec::new(), Vec::new());
    for (name, text, depth) in SEARCHES {
        for entries in ENTRIES {
            let mut speeds = (Vec::new(), Vec::new());
            let mut positions = 0;
            for _ in 0..rounds {
                let (a, x) = speed(rust, text, depth, entries);
                let (b, y) = speed(proved, text, depth, entries);
                assert_eq!(a, b, "the engines differ at {name} {depth} {entries}");
                speeds.0.push(x);
                speeds.1.push(y);
                positions = a.0;
            }
            let best = most(&speeds.1) / most(&speeds.0);
            let (x, y) = (median(speeds.0), median(speeds.1));
            println!("{name:<9} {depth:>5} {entries:>7} {positions:>10} {:>9.2} {:>11.2} {:>6.2} {best:>6.2}", x / 1e6, y / 1e6, y / x);
            ratios.0.push(y / x);
            ratios.1.push(best);
        }
    }
    println!("ratio of the medians: {}; of the best: {}", summary(&ratios.0), summary(&ratios.1));
}

fn main() {
    let words: Vec<String> = std::env::args().skip(1).collect();
    let words: Vec<&str> = words.iter().map(|w| w.as_str()).collect();
    match words[..] {
        ["times", rounds] => times(rounds.parse().expect("a number of rounds")),
        ["rows"] => {
            for (name, _, depth) in SEARCHES {
                for entries in ENTRIES {
                    println!("{name} {depth} {entries}");
                }
            }
        }
        ["one", engine, name, depth, entries] => {
            let depth = depth.parse().expect("a depth");
            let (_, text, _) = SEARCHES.iter().find(|s| s.0 == name && s.2 == depth).expect("a row");
            let ((positions, _), _) = engine_of(engine)(text, depth, entries.parse().expect("a number of entries"));
            println!("{positions}");
        }
        _ => panic!("usage: bench times ROUNDS | rows | one ENGINE NAME DEPTH ENTRIES"),
    }
}
