//! Games and texts drawn at random, and what the Rust engine says of them in the library's terms.
use engine::game::{notation, Game, GameState, Move, MoveError, Player};
use proved::Stats;
use std::panic::{catch_unwind, AssertUnwindSafe};

/// Numbers from a seed (splitmix64).
pub struct Draw(pub u64);

impl Draw {
    pub fn next(&mut self) -> u64 {
        self.0 = self.0.wrapping_add(0x9e37_79b9_7f4a_7c15);
        let mut z = self.0;
        z = (z ^ (z >> 30)).wrapping_mul(0xbf58_476d_1ce4_e5b9);
        z = (z ^ (z >> 27)).wrapping_mul(0x94d0_49bb_1331_11eb);
        z ^ (z >> 31)
    }

    pub fn below(&mut self, n: usize) -> usize {
        (self.next() % n as u64) as usize
    }

    pub fn one_of<T: Copy>(&mut self, from: &[T]) -> T {
        from[self.below(from.len())]
    }
}

/// The moves that the Rust accepts. (Its list of moves is not used: it panics on some finished games.)
pub fn legal(g: &Game) -> Vec<u8> {
    let all = (0..81).map(|i| (i / 9 * 16 + i % 9) as u8);
    all.filter(|m| g.make_move(as_move(*m)).is_ok()).collect()
}

pub fn as_move(bits: u8) -> Move {
    Move::from_coords((bits / 16) as usize, (bits % 16) as usize)
}

/// A move that is accepted, or, one time in six, any byte.
pub fn draw_move(draw: &mut Draw, g: &Game) -> u8 {
    let legal = legal(g);
    if legal.is_empty() || draw.below(6) == 0 {
        return draw.next() as u8;
    }
    draw.one_of(&legal)
}

/// What the Rust answers to a move: 0, or the refusal's number. A refused one changes nothing.
pub fn play(g: &mut Game, bits: u8) -> u8 {
    match g.make_move(as_move(bits)) {
        Ok(after) => {
            *g = after;
            0
        }
        Err(MoveError::OutOfBounds) => 9,
        Err(MoveError::GameOver) => 10,
        Err(MoveError::WonBoard) => 11,
        Err(MoveError::WrongBoard) => 12,
        Err(MoveError::NotEmpty) => 13,
    }
}

/// Up to so many moves, tried from a game.
pub fn playout(draw: &mut Draw, g: &mut Game, most: usize) -> (Vec<u8>, Vec<u8>) {
    let moves = draw.below(most + 1);
    (0..moves)
        .map(|_| {
            let m = draw_move(draw, g);
            (m, play(g, m))
        })
        .unzip()
}

fn side(p: Player) -> u64 {
    p.as_bit() as u64
}

fn boards(g: &Game, p: Player) -> u64 {
    let has = |b: &usize| matches!(g.board_state(*b), GameState::Drawn) || g.board_state(*b) == GameState::Won(p);
    (0..9).filter(has).map(|b| 1 << b).sum()
}

/// The twelve words of the Rust's game.
pub fn words(g: &Game) -> [u64; 12] {
    let rows = g.oracle_rows();
    [
        rows[0].0 as u64,
        rows[0].1 as u64,
        rows[1].0 as u64,
        rows[1].1 as u64,
        rows[2].0 as u64,
        rows[2].1 as u64,
        boards(g, Player::X),
        boards(g, Player::O),
        side(g.player()),
        g.board_to_play().map_or(proved::FREE, |b| b as u64),
        match g.game_state() {
            GameState::InPlay => 0,
            GameState::Drawn => 1,
            GameState::Won(p) => 2 + side(p),
        },
        g.oracle_hash(),
    ]
}

/// The counts of one depth.
pub fn stats(s: [i64; 7]) -> Stats {
    Stats {
        depth: s[0] as u64,
        score: s[1],
        visited: s[2] as u64,
        terminal: s[3] as u64,
        cuts: s[4] as u64,
        tt_hit: s[5] as u64,
        tt_suffice: s[6] as u64,
    }
}

/// What the Rust reads: the words, or number and place of the refusal. Document 01 has 1 for more than 256 bytes, and 5 where the Rust panics.
pub fn read(text: &str) -> Result<[u64; 12], (u64, Option<(usize, usize)>)> {
    if text.len() > 256 {
        return Err((1, Some((0, 0))));
    }
    match catch_unwind(AssertUnwindSafe(|| notation::parse(text))) {
        Err(_) => Err((5, None)),
        Ok(Ok(g)) => Ok(words(&g)),
        Ok(Err(e)) => {
            let (why, offset, length) = notation::oracle_error(text, &e);
            let number = match why.as_str() {
                "MissingSection" => 2,
                "BadPlayer" => 3,
                "TooFewSquares" => 4,
                "BadBoard" => 5,
                "TooShort" => 6,
                _ => panic!("{why}"),
            };
            Err((number, Some((offset, length))))
        }
    }
}

/// A text with up to three places changed, lost, doubled or cut.
pub fn damaged(draw: &mut Draw, text: &str) -> String {
    let mut marks: Vec<char> = text.chars().collect();
    for _ in 0..draw.below(4) {
        let at = draw.below(marks.len().max(1));
        let mark = draw.one_of(&['X', 'O', '.', '@', '#', ';', '/', ' ', 'x', '\0', 'é', '✗']);
        match draw.below(6) {
            0 if at < marks.len() => {
                marks.remove(at);
            }
            1 => marks.insert(at.min(marks.len()), mark),
            2 => marks.truncate(at),
            3 => marks.extend(std::iter::repeat(mark).take(draw.below(200))),
            _ if at < marks.len() => marks[at] = mark,
            _ => (),
        }
    }
    marks.into_iter().collect()
}
