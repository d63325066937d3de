// The examples of document 01, through the library.
use ultimattt::{analyze, answer, evaluate, GameState, Memory, Move, Player, Position, ReadError, Settings, Weights, FREE};

const EMPTY: &str = "........./........./........./........./........./........./........./........./.........";

const WEIGHTS: Weights = Weights { one: 1, two: 3, board: 20 };

const SETTINGS: Settings = Settings { depth: 1, allowance: 1_000_000, draw_winner: None, weights: WEIGHTS };

fn start() -> String {
    format!("X;.........;{EMPTY}")
}

fn text(position: &Position) -> String {
    String::from_utf8(position.render().to_vec()).unwrap()
}

fn refused(text: &str) -> (u64, usize, usize) {
    let ReadError { number, offset, length } = Position::read(text.as_bytes()).unwrap_err();
    (number, offset, length)
}

#[test]
fn lines_are_answered() {
    let closed = "XXX....../XXX....../XX......./........./........./........./........./........./.........";
    let lines = [
        (format!("X;.........;{EMPTY} 1"), "XOD 81 1 16 82 ee"),
        (format!("X;XX@......;{closed} 3"), "X 7 1 1152921504606846976 8 cc"),
        (format!("O;XXX......;{EMPTY} 5"), "XOD 0 1 -1152921504606846976 1 -"),
        ("X 3".to_string(), "E 2"),
        (String::new(), "E 19"),
        ("x\ny 1".to_string(), "E 2"),
    ];
    for (line, said) in lines {
        assert_eq!(String::from_utf8(answer(line.as_bytes())).unwrap(), said);
    }
}

#[test]
fn texts_are_read_or_refused() {
    let long = format!("{}{}", start(), "x".repeat(155));
    assert_eq!(long.len(), 256);
    assert_eq!(Position::read(long.as_bytes()), Ok(Position::new()));
    assert_eq!(refused(&format!("{long}x")), (1, 0, 0));
    assert_eq!(refused("").0, 2);
    assert_eq!(refused(&start()[..100]).0, 6);
    assert_eq!(refused("X;.........;"), (6, 12, 0));
    assert_eq!(refused(&start().replacen("X;", "Y;", 1)), (3, 0, 1));
    assert_eq!(refused(&start().replacen(";.", ";?", 1)), (5, 2, 1));
}

#[test]
fn moves_are_played_or_refused() {
    let mut position = Position::new();
    assert_eq!(text(&position), start());
    assert_eq!((position.player(), position.due(), position.hash()), (Player::X, None, 0));
    assert_eq!(position.words()[9], FREE);
    // out of range; played; taken; another board is due; out of range
    assert_eq!(position.play(&[Move(0x99), Move(0x44), Move(0x44), Move(0x00), Move::NONE]), [9, 0, 13, 12, 9]);
    assert_eq!((position.player(), position.due()), (Player::O, Some(4)));
    assert_eq!(position.state(), GameState::InPlay);
    assert_eq!(Position::read(&position.render()), Ok(position));
    assert_eq!(Position::from_words(position.words()), Some(position));
}

#[test]
fn words_over_their_bounds_are_no_position() {
    let most = [u32::MAX as u64; 6].into_iter().chain([0xffff, 0xffff, 1, 256, 3, u64::MAX]);
    for (place, bound) in most.enumerate() {
        let mut words = Position::new().words();
        words[place] = bound;
        assert!(Position::from_words(words).is_some());
        if bound < u64::MAX {
            words[place] = bound + 1;
            assert!(Position::from_words(words).is_none());
        }
    }
}

#[test]
fn the_empty_board_is_searched() {
    let mut memory = Memory::new(0);
    let report = analyze(&Position::new(), &[], SETTINGS, &mut memory);
    assert_eq!((report.number, report.stopped, report.depth, report.score, report.count), (0, false, 1, 16, 82));
    assert_eq!((report.endgame, report.status), (0, 7));
    assert_eq!(report.line, [Move(0x44)]);
    assert_eq!((report.stats[0].visited, report.stats[0].score), (82, 16));
    let after = analyze(&Position::new(), &[Move(0x44)], SETTINGS, &mut Memory::new(7));
    assert_eq!((after.count, after.stats.len()), (9, 1));
}

#[test]
fn searches_are_refused() {
    let ask = |settings: Settings, entries: usize| {
        let mut memory = Memory::new(entries);
        let before = memory.clone();
        let report = analyze(&Position::new(), &[], settings, &mut memory);
        assert_eq!((report.depth, report.score, report.line.len()), (0, 0, 0));
        assert!(report.number == 18 || memory == before);
        (report.number, report.count, report.stopped)
    };
    assert_eq!(ask(Settings { depth: 0, ..SETTINGS }, 0), (15, 0, false));
    assert_eq!(ask(Settings { depth: 82, ..SETTINGS }, 0), (15, 0, false));
    assert_eq!(ask(Settings { allowance: 0, ..SETTINGS }, 0), (16, 0, false));
    assert_eq!(ask(Settings { allowance: 1_000_000_001, ..SETTINGS }, 0), (16, 0, false));
    assert_eq!(ask(SETTINGS, 65_537), (17, 0, false));
    assert_eq!(ask(Settings { allowance: 81, ..SETTINGS }, 0), (18, 81, true));
    let heavy = Settings { weights: Weights { two: 1001, ..WEIGHTS }, ..SETTINGS };
    assert_eq!(ask(heavy, 0), (20, 0, false));
    // 17 comes before 20, and 20 before 18
    assert_eq!(ask(heavy, 65_537), (17, 0, false));
    assert_eq!(ask(Settings { allowance: 81, ..heavy }, 0), (20, 0, false));
    // words that wrap to an accepted weight are refused too
    assert_eq!(ask(Settings { weights: Weights { one: 65_537, ..WEIGHTS }, ..SETTINGS }, 0), (20, 0, false));
}

#[test]
fn positions_are_evaluated_or_refused() {
    assert_eq!(WEIGHTS, Weights::default());
    let mut position = Position::new();
    position.play(&[Move(0x44)]);
    assert_eq!(evaluate(&position, None, WEIGHTS), Ok(-16));
    assert_eq!(evaluate(&position, None, Weights { one: 1000, ..WEIGHTS }), Ok(-16_000));
    // board 4's cells 0 and 1, and board 0
    let two = "X;X........;........./........./........./........./XX......./........./........./........./.........";
    let two = Position::read(two.as_bytes()).unwrap();
    assert_eq!(evaluate(&two, None, Weights { one: 5, two: 70, board: 900 }), Ok(3040));
    let over = Position::read(format!("O;XXX......;{EMPTY}").as_bytes()).unwrap();
    assert_eq!(evaluate(&over, None, Weights { one: 0, two: 0, board: 0 }), Ok(-(1 << 60)));
    for weights in [Weights { one: 1001, ..WEIGHTS }, Weights { two: 65_536, ..WEIGHTS }, Weights { board: u64::MAX, ..WEIGHTS }] {
        assert_eq!((evaluate(&over, None, weights), evaluate(&two, None, weights)), (Err(20), Err(20)));
    }
}
