// Requests about positions, move texts and sets of results.
use crate::fields::{draw, move_letters, moves, number, or_dash, position};
use crate::{or_panic, Answer};
use ultimattt::endgame::{Analysis, Stats};
use ultimattt::game::notation::{parse_move, render, ParseMoveError};
use ultimattt::game::{CellState, Game, GameState, Move, Player};
use ultimattt::minimax::{probe, Minimax};
use ultimattt::prove::Status;

const LINES: [[usize; 3]; 8] = [[0, 1, 2], [3, 4, 5], [6, 7, 8], [0, 3, 6], [1, 4, 7], [2, 5, 8], [0, 4, 8], [6, 4, 2]];

fn has_line(is: impl Fn(usize) -> bool) -> bool {
    LINES.iter().any(|line| line.iter().all(|i| is(*i)))
}

// Document 01's "sound", through the Rust's look-ups.
pub fn sound(g: &Game) -> bool {
    let sides = [Player::X, Player::O];
    let open_and_sound = |b: usize| {
        (0..9).any(|c| g.at(b, c) == CellState::Empty) && !sides.iter().any(|p| has_line(|c| g.at(b, c) == CellState::Played(*p)))
    };
    !sides.iter().any(|p| has_line(|b| g.board_state(b) == GameState::Won(*p)))
        && (0..9).all(|b| g.board_state(b) != GameState::InPlay || open_and_sound(b))
}

fn state_name(s: GameState) -> &'static str {
    match s {
        GameState::InPlay => "InPlay",
        GameState::Drawn => "Drawn",
        GameState::Won(Player::X) => "WonX",
        GameState::Won(Player::O) => "WonO",
    }
}

// All that the lists want to know of a game.
pub fn description(g: &Game) -> String {
    let rows = g.oracle_rows().map(|(x, o)| format!("{:x}.{:x}", x, o)).join(",");
    let next = g.board_to_play().map_or("-".to_string(), |b| b.to_string());
    let moves = or_panic(|| or_dash(g.all_moves().map(|m| move_letters(m.bits())).collect()));
    format!(
        "render={} hash={} fresh={} zobrist={} state={} player={} next={} bound={} open={} rows={} moves={}",
        render(g),
        g.oracle_hash(),
        g.oracle_fresh_hash(),
        g.zobrist(),
        state_name(g.game_state()),
        g.player(),
        next,
        g.bound_depth(),
        g.open_boards(),
        rows,
        moves
    )
}

// The 81 cells, the boards' states and the bits of the drawn boards, by the look-ups.
pub fn looked_up(text: &str) -> Answer {
    let g = position(text)?;
    let cell = |i: usize| match g.at(i / 9, i % 9) {
        CellState::Empty => '0',
        CellState::Played(Player::X) => '1',
        CellState::Played(Player::O) => '2',
    };
    let cells: String = (0..81).map(cell).collect();
    let states: Vec<&str> = (0..9).map(|b| state_name(g.board_state(b))).collect();
    Ok(format!("cells={} states={} drawbits={}", cells, states.join(","), g.oracle_drawbits()))
}

pub fn move_bits(board: &str, cell: &str) -> Answer {
    Ok(Move::from_coords(number(board)?, number(cell)?).bits().to_string())
}

// Each move tried, a refused one changing nothing, and the game at the end.
pub fn played(from: Game, list: &str) -> Answer {
    let mut g = from;
    let mut results = Vec::new();
    for m in moves(list)? {
        match g.make_move(m) {
            Ok(after) => {
                g = after;
                results.push("ok".to_string());
            }
            Err(e) => results.push(format!("{:?}", e)),
        }
    }
    Ok(format!("{} {}", or_dash(results.join(",")), description(&g)))
}

pub fn move_text(text: &str) -> String {
    or_panic(|| match parse_move(text) {
        Ok(m) => format!("ok {}", m.bits()),
        Err(ParseMoveError::BadLength) => "BadLength".to_string(),
        Err(ParseMoveError::BadCharacter(c)) => format!("BadCharacter {}", c as u32),
    })
}

fn set(s: Option<Status>) -> String {
    s.map_or("none".to_string(), |s| s.as_byte().to_string())
}

pub fn status(byte: &str) -> Answer {
    Ok(set(Status::from_byte(number(byte)?)))
}

fn read_set(byte: &str) -> Result<Status, String> {
    Status::from_byte(number(byte)?).ok_or("BADREQ set".to_string())
}

// Whether X has won, whether O has, and the set that is only a draw.
pub fn won(byte: &str) -> Answer {
    let s = read_set(byte)?;
    Ok(format!("{} {} {}", s.is_won(Player::X) as u8, s.is_won(Player::O) as u8, Status::draw().as_byte()))
}

pub fn merged(a: &str, b: &str) -> Answer {
    Ok(set(read_set(a)?.merge(read_set(b)?)))
}

pub fn equivalent(a: &str, b: &str) -> Answer {
    let (a, b) = (position(a)?, position(b)?);
    Ok(format!("{} {}", a.equivalent(&b), b.equivalent(&a)))
}

pub fn evaluation(text: &str, winner: &str) -> Answer {
    let g = position(text)?;
    let m = Minimax::with_config(&probe::config(0, draw(winner)?, None));
    Ok(or_panic(|| m.evaluate(&g).to_string()))
}

// Whether the position is sound and finished; set, counts and the judging of each listed move.
pub fn endgame(text: &str) -> Answer {
    let g = position(text)?;
    let analysis = or_panic(|| {
        let mut s = Stats::default();
        let a = Analysis::new(&g, &mut s);
        let judged = |m: Move| format!("{}:{}", move_letters(m.bits()), a.evaluate_move(m).as_byte());
        let moves = or_panic(|| or_dash(g.all_moves().map(judged).collect::<Vec<_>>().join(",")));
        let counts = [s.attacker_critical, s.defender_critical, s.both_critical, s.unwinnable, s.prove_attacker, s.prove_defender];
        let stats = counts.map(|n| n.to_string()).join(",");
        format!("status={} stats={} moves={}", a.status().as_byte(), stats, moves)
    });
    Ok(format!("sound={} over={} {}", sound(&g) as u8, g.game_over() as u8, analysis))
}
