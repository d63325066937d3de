// The fields of a request, and moves in an answer.
use crate::guard;
use ultimattt::game::{notation, Game, Move, Player};

// A position's text read, or what the Rust says of it: the kind of its error, offset and length of the part at fault.
pub fn position(text: &str) -> Result<Game, String> {
    let read = guard(|| {
        notation::parse(text).map_err(|e| {
            let (kind, offset, length) = notation::oracle_error(text, &e);
            format!("ERR {} {} {}", kind, offset, length)
        })
    });
    read.unwrap_or_else(|_| Err("PANIC parse".to_string()))
}

pub fn number<T: std::str::FromStr>(text: &str) -> Result<T, String> {
    text.parse().map_err(|_| format!("BADREQ number {}", text))
}

pub fn draw(text: &str) -> Result<Option<Player>, String> {
    match text {
        "-" => Ok(None),
        "X" => Ok(Some(Player::X)),
        "O" => Ok(Some(Player::O)),
        _ => Err("BADREQ draw".to_string()),
    }
}

// Numbers 0 to 15 from letters a to p.
fn letters(text: &[u8]) -> Result<Vec<usize>, String> {
    if text.iter().any(|c| !(b'a'..=b'p').contains(c)) {
        return Err("BADREQ letters".to_string());
    }
    Ok(text.iter().map(|c| (c - b'a') as usize).collect())
}

// Moves of two letters each, so that moves out of bounds can be asked for; `pp` is the empty move.
pub fn moves(text: &str) -> Result<Vec<Move>, String> {
    let numbers = letters(text.as_bytes())?;
    if numbers.len() % 2 != 0 {
        return Err("BADREQ moves".to_string());
    }
    Ok(numbers.chunks(2).map(|c| Move::from_coords(c[0], c[1])).collect())
}

// Remembered answers, `Xeeab,Oppcc`: the side that made the previous move, the previous move, board and cell of the answer.
pub fn answers(text: &str) -> Result<Vec<(usize, u8, usize, usize)>, String> {
    text.split(',').filter(|part| !part.is_empty()).map(remembered).collect()
}

fn remembered(part: &str) -> Result<(usize, u8, usize, usize), String> {
    let side = match part.as_bytes()[0] {
        b'X' => 0,
        b'O' => 1,
        _ => return Err("BADREQ answers".to_string()),
    };
    match letters(&part.as_bytes()[1..])?[..] {
        [a, b, c, d] => Ok((side, (a << 4 | b) as u8, c, d)),
        _ => Err("BADREQ answers".to_string()),
    }
}

pub fn move_letters(bits: u8) -> String {
    if bits == 0xff {
        return "--".to_string();
    }
    [bits >> 4, bits & 15].iter().map(|n| (b'a' + n) as char).collect()
}

pub fn all_moves(bits: &[u8]) -> String {
    bits.iter().map(|b| move_letters(*b)).collect()
}

// The text, or - for none.
pub fn or_dash(text: String) -> String {
    if text.is_empty() {
        "-".to_string()
    } else {
        text
    }
}
