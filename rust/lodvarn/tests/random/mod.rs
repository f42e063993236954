//! Commands at random.
use lodvarn::{At, Case, CharSearch, Direction, Error, Movement, Session, Word};
use std::ops::Range;

/// Numbers at random, by a linear congruential generator.
#[derive(Clone)]
pub struct Random(pub u64);

impl Random {
    /// A number below n.
    pub fn below(&mut self, n: usize) -> usize {
        self.0 = self
            .0
            .wrapping_mul(6364136223846793005)
            .wrapping_add(1442695040888963407);
        (self.0 >> 33) as usize % n
    }

    pub fn one<T: Copy>(&mut self, of: &[T]) -> T {
        of[self.below(of.len())]
    }

    pub fn count(&mut self) -> u16 {
        self.one(&[0, 1, 1, 1, 2, 3])
    }

    pub fn letter(&mut self) -> char {
        self.one(&[
            'a', 'B', '7', ' ', ' ', '\n', '-', 'é', '漢', '\u{301}', '🚀',
        ])
    }

    pub fn text(&mut self) -> String {
        let len = self.below(16);
        (0..len).map(|_| self.letter()).collect()
    }

    /// A place of a text; at times one that is inside a character or past the end.
    pub fn place(&mut self, text: &str) -> usize {
        let place = self.below(text.len() + 1);
        if self.below(20) == 0 {
            return place + self.below(3);
        }
        let boundary = (place..).find(|it| text.is_char_boundary(*it));
        boundary.expect("the end is a boundary")
    }

    pub fn places(&mut self, text: &str) -> Range<usize> {
        let (one, other) = (self.place(text), self.place(text));
        one.min(other)..one.max(other)
    }

    pub fn word(&mut self) -> Word {
        self.one(&[Word::Big, Word::Emacs, Word::Vi])
    }

    pub fn at(&mut self) -> At {
        self.one(&[At::Start, At::BeforeEnd, At::AfterEnd])
    }

    pub fn search(&mut self) -> CharSearch {
        use CharSearch::*;
        let kinds: [fn(char) -> _; 4] = [Forward, ForwardBefore, Backward, BackwardAfter];
        self.one(&kinds)(self.letter())
    }

    pub fn movement(&mut self) -> Movement {
        let (n, word, at, search) = (self.count(), self.word(), self.at(), self.search());
        self.one(&[
            Movement::WholeLine,
            Movement::BeginningOfLine,
            Movement::EndOfLine,
            Movement::BackwardWord(n, word),
            Movement::BackwardWord(n, word),
            Movement::ForwardWord(n, at, word),
            Movement::ForwardWord(n, at, word),
            Movement::ViCharSearch(n, search),
            Movement::ViFirstPrint,
            Movement::BackwardChar(n),
            Movement::ForwardChar(n),
            Movement::LineUp(n),
            Movement::LineDown(n),
            Movement::BeginningOfBuffer,
            Movement::EndOfBuffer,
            Movement::FirstNonBlank,
            Movement::WholeLinesUp(n),
            Movement::WholeLinesDown(n),
        ])
    }
}

/// Gives a session a command at random.
pub fn command(s: &mut Session, random: &mut Random) -> Result<(), Error> {
    let (n, text) = (random.count(), s.text().to_string());
    match random.below(44) {
        0..=4 => s.insert(random.letter(), n).map(drop),
        5..=7 => s.paste(&random.text(), n).map(drop),
        8 => s.type_bytes(random.text().as_bytes()).map(drop),
        9..=12 => s.kill(random.movement()).map(drop),
        13..=14 => s.yank(n).map(drop),
        15 => s.yank(1).and_then(|_| s.yank_pop()).map(drop),
        16..=18 => s.undo(n).map(drop),
        19..=20 => s.redo().map(drop),
        21 => s.replace(random.places(&text), &random.text()),
        22 if random.below(4) == 0 => s.restart(&random.text()),
        22 => s.set_text(0, &random.text()),
        23 => s.insert_at(random.place(&text), &random.text()).map(drop),
        24 => s.delete_range(random.places(&text)),
        25 => s.delete(n).map(drop),
        26 => s.backspace(n).map(drop),
        27..=29 | 37 => s.delete_by(random.movement()).map(drop),
        30 => s.transpose_chars().map(drop),
        31 => s.transpose_words(n).map(drop),
        32 => {
            let cases = [Case::Capitalize, Case::Lowercase, Case::Uppercase];
            s.change_case(random.one(&cases)).map(drop)
        }
        33 => s.indent(random.movement(), 2).map(drop),
        34 => s.dedent(random.movement(), 2).map(drop),
        35 => s.begin_group(),
        36 => s.end_all_groups().map(drop),
        38 => s.set_pos(random.place(&text)),
        39 => {
            let direction = random.one(&[Direction::Forward, Direction::Backward]);
            s.kill_range(random.places(&text), direction).map(drop)
        }
        40 => s.ring_add(&random.text()),
        41 => s.end_group().map(drop),
        42 => change_options(s, random),
        _ => {
            s.move_by(random.movement());
            Ok(())
        }
    }
}

/// Changes an option of a session at random.
fn change_options(s: &mut Session, random: &mut Random) -> Result<(), Error> {
    let mut options = s.options();
    match random.below(5) {
        0 => options.limit = Some(random.below(257)),
        4 => options.ring_size = random.below(9),
        1 => options.prompt = random.count(),
        2 => options.keep_undone = random.below(2) > 0,
        _ => {
            let bounds = [(None, None), (Some(40), Some(1000)), (Some(100), Some(200))];
            (options.max_entries, options.max_bytes) = random.one(&bounds);
        }
    }
    s.set_options(&options)
}
