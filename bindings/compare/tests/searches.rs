// The search and the endgame analysis: the proved engine and the Rust from the same memory.
use compare::{legal, playout, stats, Draw};
use engine::endgame;
use engine::game::{notation, Game, Player};
use engine::minimax::{probe, Minimax};
use proved::{Memory, Move, Position, Report, Settings, Stats, Weights};

const TABLES: [usize; 4] = [0, 1, 7, 1000];

fn a_side(draw: &mut Draw) -> Option<Player> {
    draw.one_of(&[None, Some(Player::X), Some(Player::O)])
}

fn ours(side: Option<Player>) -> Option<proved::Player> {
    side.map(|p| match p {
        Player::X => proved::Player::X,
        Player::O => proved::Player::O,
    })
}

/// A position reached by moves, and the moves from there on, refused ones among them, with the Rust's game at their end.
fn drawn(draw: &mut Draw) -> (Position, Vec<Move>, Game) {
    let mut game = Game::new();
    playout(draw, &mut game, 60);
    let position = Position::read(notation::render(&game).as_bytes()).unwrap();
    let (moves, _) = playout(draw, &mut game, 20);
    (position, moves.into_iter().map(Move).collect(), game)
}

fn status(g: &Game) -> u8 {
    let mut counts = endgame::Stats::default();
    let analysis = endgame::Analysis::new(g, &mut counts);
    analysis.status().as_byte()
}

fn same_analysis(report: &Report, g: &Game) {
    assert_eq!((report.endgame, report.status), (0, status(g)));
}

#[test]
fn chains_of_searches_are_the_same() {
    let mut draw = Draw(3);
    let mut met = [0; 4];
    for _ in 0..1200 {
        let table = draw.below(4);
        let side = a_side(&mut draw);
        let mut memory = Memory::new(TABLES[table]);
        let mut rust = Minimax::with_config(&probe::config(TABLES[table], side, None));
        for _ in 0..1 + draw.below(5) {
            let (position, moves, game) = drawn(&mut draw);
            let depth = 1 + draw.below(if legal(&game).len() > 20 { 3 } else { 5 });
            let settings = Settings { depth: depth as u64, allowance: 1_000_000_000, draw_winner: ours(side), weights: Weights::default() };
            let report = proved::analyze(&position, &moves, settings, &mut memory);
            probe::set_depth(&mut rust, Some(depth as i64));
            let (line, counted) = rust.analyze(&game);
            let counted: Vec<Stats> = counted
                .iter()
                .map(|s| {
                    let s = probe::stats(s);
                    stats([s.depth, s.score, s.visited, s.terminal, s.cuts, s.tt_hit, s.tt_suffice])
                })
                .collect();
            let last = counted.last().unwrap();
            assert_eq!((report.number, report.stopped), (0, false));
            assert_eq!((report.depth, report.score), (last.depth, last.score));
            assert_eq!(report.line.iter().map(|m| m.0).collect::<Vec<_>>(), line.iter().map(|m| m.bits()).collect::<Vec<_>>());
            assert_eq!(report.stats, counted);
            assert_eq!(report.count, counted.iter().map(|s| s.visited).sum::<u64>());
            assert_eq!(memory.responses.to_vec(), probe::responses(&rust));
            assert_eq!(memory.words, probe::words(&rust));
            same_analysis(&report, &game);
            met[table] += 1;
        }
    }
    println!("{met:?} searches, by table");
    assert!(met.iter().all(|n| *n > 200));
}

/// The Rust has no allowance: its search, unchanged, is unwound by a count that overflows on entering one position too many.
#[test]
fn stopped_searches_are_the_same() {
    std::panic::set_hook(Box::new(|_| ()));
    use engine_stop::game::{notation as st_notation, Player as StPlayer};
    use engine_stop::minimax::{probe as st, Minimax as StMinimax};
    let mut draw = Draw(4);
    let mut met = [0; 3];
    for _ in 0..1500 {
        let (position, moves, game) = drawn(&mut draw);
        let depth = 1 + draw.below(5);
        let entries = TABLES[draw.below(4)];
        let allowance = 1 + draw.next() % draw.one_of(&[10, 100, 3000, 100_000]);
        let side = a_side(&mut draw);
        let mut memory = Memory::new(entries);
        let settings = Settings { depth: depth as u64, allowance, draw_winner: ours(side), weights: Weights::default() };
        let report = proved::analyze(&position, &moves, settings, &mut memory);
        let st_side = side.map(|p| match p {
            Player::X => StPlayer::X,
            Player::O => StPlayer::O,
        });
        let mut rust = StMinimax::with_config(&st::config(entries, st_side, None));
        let st_game = st_notation::parse(&notation::render(&game)).ok().unwrap();
        let said = st::analyze_stop(&mut rust, &st_game, depth as i64, allowance as i64);
        assert!(!said.broken);
        let counted: Vec<Stats> =
            said.stats.iter().map(|s| stats([s.depth, s.score, s.visited, s.terminal, s.cuts, s.tt_hit, s.tt_suffice])).collect();
        let refused = said.stopped && counted.is_empty();
        assert_eq!(report.number, if refused { 18 } else { 0 });
        assert_eq!((report.stopped, report.count), (said.stopped, said.count as u64));
        assert_eq!(report.depth, counted.len() as u64);
        assert_eq!(report.score, counted.last().map_or(0, |s| s.score));
        assert_eq!(report.stats, counted);
        assert_eq!(report.line.iter().map(|m| m.0).collect::<Vec<_>>(), said.pv.iter().map(|m| m.bits()).collect::<Vec<_>>());
        assert_eq!(memory.responses.to_vec(), st::responses(&rust));
        assert_eq!(memory.words, st::words(&rust));
        same_analysis(&report, &game);
        met[if refused { 2 } else { said.stopped as usize }] += 1;
    }
    println!("{met:?} whole, stopped, stopped before a whole depth");
    assert!(met.iter().all(|n| *n > 100));
}

/// The program's lines, made of the Rust's answers.
#[test]
fn lines_are_the_same() {
    let mut draw = Draw(5);
    let mut finished = 0;
    for _ in 0..1500 {
        let mut game = Game::new();
        playout(&mut draw, &mut game, 90);
        let depth = 1 + draw.below(3);
        let mut rust = Minimax::with_config(&probe::config(0, None, Some(depth as i64)));
        let (line, counted) = rust.analyze(&game);
        let last = probe::stats(counted.last().unwrap());
        let set = status(&game);
        let letters: String = [(1, 'X'), (2, 'O'), (4, 'D')].iter().filter(|(b, _)| set & b != 0).map(|(_, c)| c).collect();
        let visited: i64 = counted.iter().map(|s| probe::stats(s).visited).sum();
        let moves: String = line
            .iter()
            .map(|m| m.bits())
            .take_while(|b| *b != 0xff)
            .flat_map(|b| [(b'a' + b / 16) as char, (b'a' + b % 16) as char])
            .collect();
        let moves = if moves.is_empty() { "-".to_string() } else { moves };
        let said = format!("{letters} {} {} {} {visited} {moves}", legal(&game).len(), last.depth, last.score);
        let asked = format!("{} {depth}", notation::render(&game));
        assert_eq!(String::from_utf8(proved::answer(asked.as_bytes())).unwrap(), said, "{asked}");
        finished += game.game_over() as u32;
    }
    println!("{finished} of finished games");
    assert!(finished > 100);
}
