//! A safe wrapper of the proved engine. The `unsafe` blocks are the seven calls of the library, each with pointers and lengths of slices.

mod calls {
    extern "C" {
        pub fn ultimattt_answer(line: *const u8, line_len: usize, out: *mut u8, out_len: usize) -> usize;
        pub fn ultimattt_new(position: *mut u64, position_len: usize) -> u64;
        pub fn ultimattt_read(text: *const u8, text_len: usize, position: *mut u64, position_len: usize, place: *mut u64, place_len: usize) -> u64;
        pub fn ultimattt_render(position: *const u64, position_len: usize, out: *mut u8, out_len: usize) -> u64;
        pub fn ultimattt_play(
            position: *mut u64,
            position_len: usize,
            moves: *const u8,
            moves_len: usize,
            answers: *mut u8,
            answers_len: usize,
        ) -> u64;
        pub fn ultimattt_analyze(
            position: *const u64,
            position_len: usize,
            moves: *const u8,
            moves_len: usize,
            settings: *const u64,
            settings_len: usize,
            responses: *mut u8,
            responses_len: usize,
            words: *mut u64,
            words_len: usize,
            report: *mut u64,
            report_len: usize,
        ) -> u64;
        pub fn ultimattt_evaluate(
            position: *const u64,
            position_len: usize,
            draw_winner: u64,
            weights: *const u64,
            weights_len: usize,
            score: *mut u64,
            score_len: usize,
        ) -> u64;
    }
}

/// What a call returns that is asked wrongly. This wrapper never asks so, but for words of the caller that are no position.
pub const BAD_ARGUMENT: u64 = 255;

/// The due board's word for free choice.
pub const FREE: u64 = 256;

/// No answer to a line is longer.
const LONGEST_ANSWER: usize = 224;

/// The program's answer to a line without its line feed.
pub fn answer(line: &[u8]) -> Vec<u8> {
    let mut out = vec![0; LONGEST_ANSWER];
    let n = unsafe { calls::ultimattt_answer(line.as_ptr(), line.len(), out.as_mut_ptr(), out.len()) };
    assert!(n <= out.len());
    out.truncate(n);
    out
}

/// 16 times board plus cell; 0xff is no move.
#[derive(Clone, Copy, Debug, PartialEq, Eq)]
pub struct Move(pub u8);

impl Move {
    pub const NONE: Move = Move(0xff);
}

#[derive(Clone, Copy, Debug, PartialEq, Eq)]
pub enum Player {
    X,
    O,
}

#[derive(Clone, Copy, Debug, PartialEq, Eq)]
pub enum GameState {
    InPlay,
    Drawn,
    Won(Player),
}

/// A text that is no position: the refusal, and the part that is at fault.
#[derive(Clone, Copy, Debug, PartialEq, Eq)]
pub struct ReadError {
    pub number: u64,
    pub offset: usize,
    pub length: usize,
}

/// A position; its words are always those of one.
#[derive(Clone, Copy, Debug, PartialEq, Eq)]
pub struct Position {
    words: [u64; 12],
}

impl Position {
    /// The empty board.
    pub fn new() -> Position {
        let mut words = [0; 12];
        let number = unsafe { calls::ultimattt_new(words.as_mut_ptr(), words.len()) };
        assert_eq!(number, 0);
        Position { words }
    }

    pub fn read(text: &[u8]) -> Result<Position, ReadError> {
        let mut words = [0; 12];
        let mut place = [0; 2];
        let number = unsafe {
            calls::ultimattt_read(text.as_ptr(), text.len(), words.as_mut_ptr(), words.len(), place.as_mut_ptr(), place.len())
        };
        assert_ne!(number, BAD_ARGUMENT);
        if number == 0 {
            return Ok(Position { words });
        }
        Err(ReadError { number, offset: place[0] as usize, length: place[1] as usize })
    }

    /// The position of twelve words, if they are one.
    pub fn from_words(words: [u64; 12]) -> Option<Position> {
        let position = Position { words };
        position.text().map(|_| position)
    }

    pub fn words(&self) -> [u64; 12] {
        self.words
    }

    fn text(&self) -> Option<[u8; 101]> {
        let mut out = [0; 101];
        let number = unsafe { calls::ultimattt_render(self.words.as_ptr(), self.words.len(), out.as_mut_ptr(), out.len()) };
        (number == 0).then_some(out)
    }

    pub fn render(&self) -> [u8; 101] {
        self.text().expect("a position's words")
    }

    /// Tries moves one after the other; a refused one changes nothing. 0, or refusal 9 to 13, for each.
    pub fn play(&mut self, moves: &[Move]) -> Vec<u8> {
        let bytes: Vec<u8> = moves.iter().map(|m| m.0).collect();
        let mut answers = vec![0; bytes.len()];
        let number = unsafe {
            calls::ultimattt_play(
                self.words.as_mut_ptr(),
                self.words.len(),
                bytes.as_ptr(),
                bytes.len(),
                answers.as_mut_ptr(),
                answers.len(),
            )
        };
        assert_eq!(number, 0);
        answers
    }

    pub fn player(&self) -> Player {
        if self.words[8] == 0 { Player::X } else { Player::O }
    }

    /// The board that is due, or free choice.
    pub fn due(&self) -> Option<u8> {
        (self.words[9] != FREE).then_some(self.words[9] as u8)
    }

    pub fn state(&self) -> GameState {
        match self.words[10] {
            0 => GameState::InPlay,
            1 => GameState::Drawn,
            2 => GameState::Won(Player::X),
            _ => GameState::Won(Player::O),
        }
    }

    /// The hash of cells and closed boards, without due board and side.
    pub fn hash(&self) -> u64 {
        self.words[11]
    }
}

impl Default for Position {
    fn default() -> Position {
        Position::new()
    }
}

/// What the evaluation gives for one place of a board's line, for two places, and for a won board, each 0 to 1,000.
#[derive(Clone, Copy, Debug, PartialEq, Eq)]
pub struct Weights {
    pub one: u64,
    pub two: u64,
    pub board: u64,
}

impl Weights {
    fn words(&self) -> [u64; 3] {
        [self.one, self.two, self.board]
    }
}

impl Default for Weights {
    fn default() -> Weights {
        Weights { one: 1, two: 3, board: 20 }
    }
}

fn draw_word(draw_winner: Option<Player>) -> u64 {
    match draw_winner {
        None => 0,
        Some(Player::X) => 1,
        Some(Player::O) => 2,
    }
}

/// The evaluation of a position for the side to move, or 20.
pub fn evaluate(position: &Position, draw_winner: Option<Player>, weights: Weights) -> Result<i64, u64> {
    let weights = weights.words();
    let mut score = [0; 1];
    let number = unsafe {
        calls::ultimattt_evaluate(
            position.words.as_ptr(),
            position.words.len(),
            draw_word(draw_winner),
            weights.as_ptr(),
            weights.len(),
            score.as_mut_ptr(),
            score.len(),
        )
    };
    assert_ne!(number, BAD_ARGUMENT);
    if number == 0 { Ok(score[0] as i64) } else { Err(number) }
}

/// What is asked of a search.
#[derive(Clone, Copy, Debug, PartialEq, Eq)]
pub struct Settings {
    /// 1 to 81
    pub depth: u64,
    /// positions that may be entered, 1 to 1,000,000,000
    pub allowance: u64,
    /// for whom a drawn game counts as won
    pub draw_winner: Option<Player>,
    pub weights: Weights,
}

impl Settings {
    fn words(&self) -> [u64; 6] {
        let [one, two, board] = self.weights.words();
        [self.depth, self.allowance, draw_word(self.draw_winner), one, two, board]
    }
}

/// What a search keeps for the next: the responses to X's moves and to O's, and the table, three words an entry.
#[derive(Clone, Debug, PartialEq, Eq)]
pub struct Memory {
    pub responses: [u8; 512],
    pub words: Vec<u64>,
}

impl Memory {
    /// No responses, and an empty table of so many entries; 0 is a table that is off.
    pub fn new(entries: usize) -> Memory {
        Memory { responses: [0xff; 512], words: vec![0; 3 * entries] }
    }
}

/// Of one whole depth.
#[derive(Clone, Copy, Debug, PartialEq, Eq)]
pub struct Stats {
    pub depth: u64,
    pub score: i64,
    pub visited: u64,
    pub terminal: u64,
    pub cuts: u64,
    pub tt_hit: u64,
    pub tt_suffice: u64,
}

#[derive(Clone, Debug, PartialEq, Eq)]
pub struct Report {
    /// 0, or the search's refusal, 15 to 18 or 20
    pub number: u64,
    /// the allowance stopped the search
    pub stopped: bool,
    /// the last whole depth
    pub depth: u64,
    pub score: i64,
    /// positions entered
    pub count: u64,
    /// 0, or 14
    pub endgame: u64,
    /// the results left: 1 X wins, 2 O wins, 4 draw, added
    pub status: u8,
    /// as many moves as the last whole depth; those after one that ends the game say nothing
    pub line: Vec<Move>,
    pub stats: Vec<Stats>,
}

const LINE: usize = 7;
const STATS: usize = LINE + 81;
const REPORT: usize = STATS + 7 * 81;

fn stats_of(words: &[u64]) -> Stats {
    Stats {
        depth: words[0],
        score: words[1] as i64,
        visited: words[2],
        terminal: words[3],
        cuts: words[4],
        tt_hit: words[5],
        tt_suffice: words[6],
    }
}

fn report_of(words: &[u64; REPORT]) -> Report {
    let depth = words[2] as usize;
    Report {
        number: words[0],
        stopped: words[1] == 1,
        depth: words[2],
        score: words[3] as i64,
        count: words[4],
        endgame: words[5],
        status: words[6] as u8,
        line: words[LINE..LINE + depth].iter().map(|w| Move(*w as u8)).collect(),
        stats: words[STATS..STATS + 7 * depth].chunks(7).map(stats_of).collect(),
    }
}

/// Tries moves from a position, then searches and analyses the position reached. The memory is as the search leaves it. It uses up to 400 KB
/// of the thread's stack.
pub fn analyze(position: &Position, moves: &[Move], settings: Settings, memory: &mut Memory) -> Report {
    let bytes: Vec<u8> = moves.iter().map(|m| m.0).collect();
    let settings = settings.words();
    let mut report = [0; REPORT];
    let number = unsafe {
        calls::ultimattt_analyze(
            position.words.as_ptr(),
            position.words.len(),
            bytes.as_ptr(),
            bytes.len(),
            settings.as_ptr(),
            settings.len(),
            memory.responses.as_mut_ptr(),
            memory.responses.len(),
            memory.words.as_mut_ptr(),
            memory.words.len(),
            report.as_mut_ptr(),
            report.len(),
        )
    };
    assert_ne!(number, BAD_ARGUMENT);
    report_of(&report)
}

// What the functions above never ask: slices that are too short or longer than needed.
#[cfg(test)]
mod tests {
    use super::*;

    fn read(text: &[u8], position: &mut [u64], place: &mut [u64]) -> u64 {
        unsafe { calls::ultimattt_read(text.as_ptr(), text.len(), position.as_mut_ptr(), position.len(), place.as_mut_ptr(), place.len()) }
    }

    const SETTINGS: [u64; 6] = [1, 1000, 0, 1, 3, 20];

    fn asked(settings: &[u64], answers: &mut [u8], words: &mut [u64], report: &mut [u64]) -> u64 {
        let p = Position::new().words;
        unsafe {
            calls::ultimattt_analyze(
                p.as_ptr(),
                p.len(),
                [].as_ptr(),
                0,
                settings.as_ptr(),
                settings.len(),
                answers.as_mut_ptr(),
                answers.len(),
                words.as_mut_ptr(),
                words.len(),
                report.as_mut_ptr(),
                report.len(),
            )
        }
    }

    #[test]
    fn too_short_slices_are_kept() {
        let mut words = [7; 11];
        assert_eq!(unsafe { calls::ultimattt_new(words.as_mut_ptr(), words.len()) }, BAD_ARGUMENT);
        assert_eq!(words, [7; 11]);
        let (mut position, mut place) = ([7; 12], [7; 1]);
        assert_eq!(read(b"X", &mut position, &mut place), BAD_ARGUMENT);
        assert_eq!((position, place), ([7; 12], [7; 1]));
        let mut out = [7; 4];
        let n = unsafe { calls::ultimattt_answer(b"x 99".as_ptr(), 4, out.as_mut_ptr(), 2) };
        assert_eq!((n, out), (3, [7; 4]));
        let p = Position::new().words;
        let mut text = [7; 100];
        assert_eq!(unsafe { calls::ultimattt_render(p.as_ptr(), p.len(), text.as_mut_ptr(), text.len()) }, BAD_ARGUMENT);
        assert_eq!(unsafe { calls::ultimattt_render(p.as_ptr(), 11, text.as_mut_ptr(), text.len()) }, BAD_ARGUMENT);
        assert_eq!(text, [7; 100]);
        let (mut words, mut answers) = (p, [7; 1]);
        let moves = [0x44, 0x40];
        let number = unsafe { calls::ultimattt_play(words.as_mut_ptr(), 12, moves.as_ptr(), 2, answers.as_mut_ptr(), 1) };
        assert_eq!((number, words, answers), (BAD_ARGUMENT, p, [7; 1]));
    }

    #[test]
    fn wrongly_asked_searches_change_nothing() {
        let wrong = [1, 1000, 3, 1, 3, 20];
        let full = &SETTINGS[..];
        for (settings, answers, report) in
            [(&wrong[..], 512, REPORT), (&full[..5], 512, REPORT), (full, 511, REPORT), (full, 512, REPORT - 1)]
        {
            let (mut answers, mut words, mut report) = (vec![7; answers], vec![0; 3], vec![7; report]);
            assert_eq!(asked(settings, &mut answers, &mut words, &mut report), BAD_ARGUMENT);
            assert!(answers.iter().all(|b| *b == 7) && words == [0; 3] && report.iter().all(|w| *w == 7));
        }
    }

    #[test]
    fn longer_slices_keep_the_rest() {
        let (mut position, mut place) = ([7; 14], [7; 3]);
        assert_eq!(read(b"X", &mut position, &mut place), 2);
        assert_eq!((&position[..12], &position[12..], place[2]), (&Position::new().words[..], &[7, 7][..], 7));
        let (mut answers, mut report) = (vec![0xff; 514], vec![7; REPORT + 2]);
        assert_eq!(asked(&[1, 1000, 2, 1, 3, 20, 7], &mut answers, &mut [], &mut report), 0);
        assert_eq!((&answers[512..], &report[REPORT..], report[2], report[4]), (&[0xff, 0xff][..], &[7, 7][..], 1, 82));
    }

    fn valued(position: &[u64], draw_winner: u64, weights: &[u64], score: &mut [u64]) -> u64 {
        unsafe {
            calls::ultimattt_evaluate(
                position.as_ptr(),
                position.len(),
                draw_winner,
                weights.as_ptr(),
                weights.len(),
                score.as_mut_ptr(),
                score.len(),
            )
        }
    }

    #[test]
    fn evaluations_asked_wrongly_change_nothing() {
        let p = Position::new().words;
        let full = &[1, 3, 20][..];
        for (position, draw_winner, weights) in [(&p[..11], 0, full), (&p[..], 3, full), (&p[..], 0, &full[..2])] {
            let mut score = [7; 2];
            assert_eq!((valued(position, draw_winner, weights, &mut score), score), (BAD_ARGUMENT, [7; 2]));
        }
        assert_eq!(valued(&p, 0, full, &mut []), BAD_ARGUMENT);
        // refused is not asked wrongly: the score is 0, and the place after it is kept
        let mut score = [7; 2];
        assert_eq!((valued(&p, 0, &[1, 3, u64::MAX], &mut score), score), (20, [0, 7]));
        let mut score = [7; 2];
        assert_eq!((valued(&p, 2, &[1, 3, 20, 9999], &mut score), score), (0, [0, 7]));
    }
}
