//! The search of a level, breadth first.

use crate::board::Board;
use crate::game::{Entry, Game, Level};
use crate::masks::Mask;
use crate::packing::Packing;
use crate::stage::{Audience, Goes, Play, Stage};
use crate::states::{Noted, States};
use crate::turns::Turner;
use crate::words::Move;

/// What is asked of the levels of a game.
pub struct Question {
    /// The number of the level; all of them, where there is none.
    pub level: Option<usize>,
    /// How many states are kept at most.
    pub limit: usize,
    /// Whether the numbers of states and turns are told.
    pub counts: bool,
}

const INPUTS: [(Move, u8); 5] =
    [(Move::Up, b'w'), (Move::Left, b'a'), (Move::Down, b's'), (Move::Right, b'd'), (Move::Action, b'x')];

enum Found {
    Won(Vec<u8>),
    Never,
    Unknown(usize),
}

/// Nobody looks at a level that is searched.
struct Nobody;

impl<const N: usize, const M: usize> Audience<N, M> for Nobody {
    fn frame(&mut self, _: &Board<N, M>) {}
    fn message(&mut self, _: usize) {}
    fn keep(&mut self, _: &[Mask<N>]) {}
}

/// Says of each level that is asked about whether it can be won.
pub fn solve<const N: usize, const M: usize>(game: &Game, question: &Question) -> Vec<u8> {
    let mut told = String::new();
    let mut turner: Turner<N, M> = Turner::new(game);
    let levels = game.entries.iter().filter_map(|entry| match entry {
        Entry::Level(level) => Some(level),
        Entry::Message(_) => None,
    });
    for (at, level) in levels.enumerate() {
        if question.level.is_none_or(|asked| asked == at + 1) {
            let mut search = Search::new(&mut turner, level);
            let found = search.search(question.limit);
            told += &format!("level {}: {}\n", at + 1, words(&found, search.states.count()));
            if question.counts {
                let (states, turns) = (counted(search.states.count(), "state"), counted(search.turns, "turn"));
                told += &format!("  {states}, {turns}\n");
            }
        }
    }
    told.into_bytes()
}

/// An answer in words.
fn words(found: &Found, states: usize) -> String {
    let states = counted(states, "state");
    match found {
        Found::Won(keys) => format!("won in {}: {}", counted(keys.len(), "key"), String::from_utf8_lossy(keys)),
        Found::Never => format!("can't be won ({states})"),
        Found::Unknown(depth) => format!("unknown: not in {} ({states})", counted(*depth, "key")),
    }
}

/// How many of something there are, with commas in the number.
fn counted(number: usize, word: &str) -> String {
    let digits = number.to_string();
    let mut number = String::new();
    for (at, digit) in digits.chars().enumerate() {
        if at > 0 && (digits.len() - at).is_multiple_of(3) {
            number.push(',');
        }
        number.push(digit);
    }
    format!("{number} {word}{}", if digits == "1" { "" } else { "s" })
}

struct Search<'s, 'g, const N: usize, const M: usize> {
    turner: &'s mut Turner<'g, N, M>,
    stage: Stage<N, M>,
    /// The board of the state under work.
    base: Board<N, M>,
    /// Where the level is in the state under work.
    goes: Goes,
    packing: Packing<N>,
    states: States,
    turns: usize,
}

impl<'s, 'g, const N: usize, const M: usize> Search<'s, 'g, N, M> {
    fn new(turner: &'s mut Turner<'g, N, M>, level: &Level) -> Search<'s, 'g, N, M> {
        let base = Board::of_level(level);
        let states = States::new(base.cells.len() + 1);
        let packing = Packing::new(&base.objects());
        Search {
            turner,
            stage: Stage::new(Board::of_level(level)),
            base,
            goes: Goes::Playing,
            packing,
            states,
            turns: 0,
        }
    }

    fn with<T>(&mut self, act: impl FnOnce(&mut Play<'_, 'g, Nobody, N, M>) -> T) -> T {
        act(&mut Play { turner: self.turner, stage: &mut self.stage, audience: &mut Nobody })
    }

    /// Notes the state at the start of the level: whether that may be kept.
    fn begin(&mut self, limit: usize) -> bool {
        let goes = self.with(|play| play.start(None));
        self.packing.pack_first(&mut self.states, &self.stage.board.objects());
        self.packing.pack_situation(&mut self.states, goes, &mut self.stage);
        self.stage.board.touched.clear();
        self.stage.earlier.clear();
        self.states.note(0, 0, limit) == Noted::New
    }

    /// Searches for the fewest keys that win, and keeps at most so many states.
    fn search(&mut self, limit: usize) -> Found {
        let (mut at, mut end, mut depth) = (0, 1, 0);
        if !self.begin(limit) {
            return Found::Unknown(0);
        }
        while at < self.states.count() {
            if at == end {
                (end, depth) = (self.states.count(), depth + 1);
            }
            self.enter(at);
            for (input, letter) in INPUTS {
                self.turns += 1;
                match self.step(input) {
                    None => {}
                    Some(Goes::Won) => {
                        let mut keys = self.states.inputs(at);
                        keys.push(letter);
                        return Found::Won(keys);
                    }
                    Some(goes) => {
                        if self.note(goes, (at, letter), limit) == Noted::Refused {
                            return Found::Unknown(depth);
                        }
                    }
                }
            }
            at += 1;
        }
        Found::Never
    }

    /// Goes to a state.
    fn enter(&mut self, state: usize) {
        let (stage, base) = (&mut self.stage, &mut self.base);
        self.packing.unpack(&self.states, state, |cell, objects| {
            base.cells[cell].objects = objects;
            stage.board.cells[cell].objects = objects;
            stage.before[cell] = objects;
        });
        stage.knows_players = false;
        base.look();
        stage.board.copy_lines(base);
        self.goes = self.packing.unpack_situation(&self.states, state, stage);
    }

    /// Where an input leads from the state under work; nothing, if it does nothing.
    fn step(&mut self, input: Move) -> Option<Goes> {
        match (self.goes, input) {
            (Goes::Waiting(pending), Move::Action) => Some(self.with(|play| play.dismiss(pending))),
            (Goes::Waiting(_), _) => None,
            (_, Move::Action) if self.turner.game.options.has_no_action => None,
            _ => Some(self.with(|play| play.key(input))),
        }
    }

    /// Notes the state that the level has come to. The boards are then again those of the state under work.
    fn note(&mut self, goes: Goes, (parent, letter): (usize, u8), limit: usize) -> Noted {
        self.states.load(parent);
        let stage = &mut self.stage;
        let is_elsewhere = stage.has_checkpoint || goes != self.goes;
        let mut has_changed = is_elsewhere;
        while let Some(cell) = stage.board.touched.pop().or_else(|| stage.earlier.pop()) {
            let cell = cell as usize;
            let objects = stage.board.cells[cell].objects;
            if objects != self.base.cells[cell].objects {
                self.packing.pack(&mut self.states, cell, &objects);
                has_changed = true;
            }
            stage.board.copy_cell(&self.base, cell);
            stage.before[cell] = self.base.cells[cell].objects;
        }
        stage.board.all = self.base.all;
        if !has_changed {
            return Noted::Known;
        }
        if is_elsewhere {
            self.packing.pack_situation(&mut self.states, goes, stage);
        }
        self.states.note(parent, letter, limit)
    }
}
