// Under drawn weights: the evaluation against one worked out from the text, and the search against plain minimax by it, in which nothing
// is cut, over the library's own moves.
use ultimattt::{analyze, evaluate, GameState, Memory, Move, Player, Position, Settings, Weights};

const LINES: [[usize; 3]; 8] = [[0, 1, 2], [3, 4, 5], [6, 7, 8], [0, 3, 6], [1, 4, 7], [2, 5, 8], [0, 4, 8], [2, 4, 6]];

const WON: i64 = 1 << 60;

/// Numbers from a seed (splitmix64).
struct Draw(u64);

impl Draw {
    fn below(&mut self, n: usize) -> usize {
        self.0 = self.0.wrapping_add(0x9e37_79b9_7f4a_7c15);
        let mut z = self.0;
        z = (z ^ (z >> 30)).wrapping_mul(0xbf58_476d_1ce4_e5b9);
        z = (z ^ (z >> 27)).wrapping_mul(0x94d0_49bb_1331_11eb);
        ((z ^ (z >> 31)) % n as u64) as usize
    }

    fn weight(&mut self) -> u64 {
        let any = self.below(1001) as u64;
        [0, 1, 1000, any][self.below(4)]
    }

    fn weights(&mut self) -> Weights {
        Weights { one: self.weight(), two: self.weight(), board: self.weight() }
    }
}

fn places(marks: &[u8], side: u8, line: &[usize; 3]) -> u64 {
    line.iter().filter(|i| marks[**i] == side).count() as u64
}

fn board_score(cells: &[u8], w: &Weights) -> i64 {
    let worth = |n: u64| [0, w.one, w.two, 0][n as usize] as i64;
    let line = |l| match (places(cells, b'X', l), places(cells, b'O', l)) {
        (x, 0) => worth(x),
        (0, o) => -worth(o),
        _ => 0,
    };
    LINES.iter().map(line).sum()
}

/// For the side to move, by the text: its letter, the marks of the nine boards, and their cells.
fn value(position: &Position, draw_winner: Option<Player>, w: &Weights) -> i64 {
    let own = |side: Player| if side == position.player() { 1 } else { -1 };
    match (position.state(), draw_winner) {
        (GameState::Won(side), _) | (GameState::Drawn, Some(side)) => own(side) * WON,
        (GameState::Drawn, None) => 0,
        (GameState::InPlay, _) => {
            let text = position.render();
            let marks = &text[2..11];
            let cells: Vec<&[u8]> = text[12..].split(|b| *b == b'/').collect();
            let score = |b: &usize| if matches!(marks[*b], b'.' | b'@') { board_score(cells[*b], w) } else { 0 };
            let line = |l: &[usize; 3]| {
                let (x, o) = (places(marks, b'X', l), places(marks, b'O', l));
                if x > 0 && o > 0 { 0 } else { (x as i64 - o as i64) * w.board as i64 + l.iter().map(score).sum::<i64>() }
            };
            own(Player::X) * LINES.iter().map(line).sum::<i64>()
        }
    }
}

fn moves(position: &Position) -> Vec<(Move, Position)> {
    let all = (0..81).map(|i| Move((i / 9 * 16 + i % 9) as u8));
    let after = |m| {
        let mut p = *position;
        (p.play(&[m]) == [0]).then_some((m, p))
    };
    all.filter_map(after).collect()
}

/// The best of all replies to all moves, with no branch left out.
fn plain(position: &Position, depth: usize, draw_winner: Option<Player>, w: &Weights) -> i64 {
    if depth == 0 || position.state() != GameState::InPlay {
        return value(position, draw_winner, w);
    }
    moves(position).iter().map(|(_, p)| -plain(p, depth - 1, draw_winner, w)).max().unwrap()
}

fn playout(draw: &mut Draw, most: usize) -> Position {
    let mut position = Position::new();
    for _ in 0..draw.below(most + 1) {
        let legal = moves(&position);
        if legal.is_empty() {
            break;
        }
        position = legal[draw.below(legal.len())].1;
    }
    position
}

fn a_side(draw: &mut Draw) -> Option<Player> {
    [None, Some(Player::X), Some(Player::O)][draw.below(3)]
}

#[test]
fn evaluations_are_the_models() {
    let mut draw = Draw(1);
    let mut finished = 0;
    for _ in 0..4000 {
        let position = playout(&mut draw, 90);
        let (side, w) = (a_side(&mut draw), draw.weights());
        let said = evaluate(&position, side, w).unwrap();
        assert_eq!(said, value(&position, side, &w), "{w:?}");
        if position.state() == GameState::InPlay {
            assert!(said.unsigned_abs() <= 24 * w.board + 192 * w.one.max(w.two));
        } else {
            finished += 1;
        }
    }
    assert!(finished > 400);
}

#[test]
fn searches_are_plain_minimax() {
    let mut draw = Draw(2);
    let mut decided = 0;
    for _ in 0..300 {
        let mut position = playout(&mut draw, 80);
        while position.state() != GameState::InPlay {
            position = playout(&mut draw, 80);
        }
        let wide = moves(&position).len() > 12;
        let depth = 1 + draw.below(if wide { 2 } else { 4 });
        let (draw_winner, weights) = (a_side(&mut draw), draw.weights());
        // responses of any kind, as other weights may have left them
        let mut memory = Memory::new(0);
        memory.responses.iter_mut().for_each(|r| *r = [0xff, (draw.below(9) * 16 + draw.below(9)) as u8][draw.below(2)]);
        let settings = Settings { depth: depth as u64, allowance: 1_000_000_000, draw_winner, weights };
        let report = analyze(&position, &[], settings, &mut memory);
        assert_eq!((report.number, report.stopped), (0, false));
        assert_eq!(report.score, plain(&position, depth, draw_winner, &weights), "{weights:?}");
        // the first move attains it, and so does the line where it ends
        let first = moves(&position).into_iter().find(|(m, _)| *m == report.line[0]).unwrap().1;
        assert_eq!(-plain(&first, depth - 1, draw_winner, &weights), report.score);
        let (mut end, mut sign) = (position, 1);
        for m in &report.line {
            if end.state() != GameState::InPlay {
                break;
            }
            assert_eq!(end.play(&[*m]), [0]);
            sign = -sign;
        }
        assert_eq!(sign * value(&end, draw_winner, &weights), report.score);
        decided += (report.score.abs() == WON) as u32;
    }
    println!("{decided} of 300 are won or lost");
    assert!(decided > 10);
}
