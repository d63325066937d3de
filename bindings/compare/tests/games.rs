// Play, texts and reading: the proved engine and the Rust on the same games.
use compare::{damaged, playout, read, words, Draw};
use engine::game::{notation, Game};
use proved::{Move, Position, ReadError};

#[test]
fn play_is_the_same() {
    let mut draw = Draw(1);
    let mut tried = 0;
    for _ in 0..4000 {
        let (mut game, mut position) = (Game::new(), Position::new());
        // in two lists, the second from where the first has led
        for most in [90, 40] {
            let (moves, answers) = playout(&mut draw, &mut game, most);
            let moves: Vec<Move> = moves.into_iter().map(Move).collect();
            assert_eq!(position.play(&moves), answers);
            assert_eq!(position.words(), words(&game));
            tried += moves.len();
        }
        let text = notation::render(&game);
        assert_eq!(position.render(), text.as_bytes());
        assert_eq!(Position::read(text.as_bytes()), Ok(position));
        assert_eq!(read(&text), Ok(position.words()));
    }
    println!("{tried} moves");
    assert!(tried > 200_000);
}

#[test]
fn reading_is_the_same() {
    std::panic::set_hook(Box::new(|_| ()));
    let mut draw = Draw(2);
    let mut met = [0; 7];
    for _ in 0..40_000 {
        let mut game = Game::new();
        playout(&mut draw, &mut game, 80);
        let text = damaged(&mut draw, &notation::render(&game));
        let number = match (Position::read(text.as_bytes()), read(&text)) {
            (Ok(position), Ok(words)) => {
                assert_eq!(position.words(), words, "{text}");
                0
            }
            (Err(ReadError { number, offset, length }), Err((expected, place))) => {
                assert_eq!(number, expected, "{text}");
                assert!(place.is_none_or(|p| p == (offset, length)), "{text} {offset} {length} {place:?}");
                number
            }
            (ours, rust) => panic!("{text}: {ours:?} {rust:?}"),
        };
        met[number as usize] += 1;
    }
    println!("{met:?}");
    assert!(met.iter().all(|n| *n > 100));
}
