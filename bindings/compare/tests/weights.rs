// Other weights: the proved engine and a stand-in, the Rust with its three constants replaced, from memory that no other weights wrote.
use compare::{legal, playout, stats, Draw};
use engine::game::{notation, Game as Played};
use engine_weights::game::{notation as texts, Game, Player};
use engine_weights::minimax::{probe, set_weights, Minimax};
use proved::{Memory, Position, Settings, Stats, Weights};

const SETS: [[u64; 3]; 6] = [[0, 0, 0], [1000, 1000, 1000], [0, 1000, 7], [1000, 0, 1], [1, 3, 20], [17, 2, 999]];

const SIDES: [(Option<Player>, Option<proved::Player>); 3] =
    [(None, None), (Some(Player::X), Some(proved::Player::X)), (Some(Player::O), Some(proved::Player::O))];

/// For the stand-in on this thread, and for the library.
fn set_both(set: [u64; 3]) -> Weights {
    set_weights([set[0] as i64, set[1] as i64, set[2] as i64]);
    Weights { one: set[0], two: set[1], board: set[2] }
}

/// A position as each has it, and how many moves are legal.
fn drawn(draw: &mut Draw, most: usize) -> (Position, Game, usize) {
    let mut game = Played::new();
    playout(draw, &mut game, most);
    let text = notation::render(&game);
    (Position::read(text.as_bytes()).unwrap(), texts::parse(&text).ok().unwrap(), legal(&game).len())
}

#[test]
fn evaluations_are_the_same() {
    let mut draw = Draw(6);
    let mut apart = [0; SETS.len()];
    for n in 0..6000 {
        let weights = set_both(SETS[n % SETS.len()]);
        let (position, game, _) = drawn(&mut draw, 80);
        let (side, ours) = SIDES[draw.below(3)];
        let rust = Minimax::with_config(&probe::config(0, side, None));
        let value = rust.evaluate(&game);
        assert_eq!(proved::evaluate(&position, ours, weights), Ok(value), "{weights:?}");
        apart[n % SETS.len()] += (Ok(value) != proved::evaluate(&position, ours, Weights::default())) as u32;
    }
    println!("{apart:?} of 1,000 each are other than with the default weights");
    assert!(apart.iter().zip(SETS).all(|(n, set)| (*n == 0) == (set == [1, 3, 20])));
}

#[test]
fn searches_are_the_same() {
    let mut draw = Draw(7);
    let mut searches = 0;
    for n in 0..600 {
        let weights = set_both(SETS[n % SETS.len()]);
        let entries = draw.one_of(&[0, 1, 7, 1000]);
        let (side, draw_winner) = SIDES[draw.below(3)];
        let mut memory = Memory::new(entries);
        let mut rust = Minimax::with_config(&probe::config(entries, side, None));
        for _ in 0..1 + draw.below(4) {
            let (position, game, moves) = drawn(&mut draw, 70);
            let depth = 1 + draw.below(if moves > 20 { 3 } else { 5 });
            let settings = Settings { depth: depth as u64, allowance: 1_000_000_000, draw_winner, weights };
            let report = proved::analyze(&position, &[], settings, &mut memory);
            probe::set_depth(&mut rust, Some(depth as i64));
            let (line, counted) = rust.analyze(&game);
            let counted: Vec<Stats> = counted
                .iter()
                .map(|s| {
                    let s = probe::stats(s);
                    stats([s.depth, s.score, s.visited, s.terminal, s.cuts, s.tt_hit, s.tt_suffice])
                })
                .collect();
            assert_eq!((report.number, report.stopped), (0, false));
            assert_eq!(report.stats, counted);
            assert_eq!(report.score, counted.last().unwrap().score);
            assert_eq!(report.line.iter().map(|m| m.0).collect::<Vec<_>>(), line.iter().map(|m| m.bits()).collect::<Vec<_>>());
            assert_eq!(memory.responses.to_vec(), probe::responses(&rust));
            assert_eq!(memory.words, probe::words(&rust));
            searches += 1;
        }
    }
    println!("{searches} searches");
    assert!(searches > 1000);
}
