//! A run: keys are read, and what comes of them is written.

use crate::board::Board;
use crate::frames::Frames;
use crate::game::{Entry, Game};
use crate::masks::Mask;
use crate::stage::{Audience, Goes, Play, Stage};
use crate::turns::Turner;
use crate::words::Move;
use std::collections::VecDeque;

const MOST_KEPT: usize = 1000;

#[derive(Clone, Copy)]
enum Key {
    Move(Move),
    Undo,
    Restart,
    Quit,
}

/// The keys of a stream of bytes.
fn keys(bytes: &[u8]) -> Vec<Key> {
    let mut keys = Vec::new();
    let mut bytes = bytes;
    while let [first, rest @ ..] = bytes {
        bytes = rest;
        let letter = match (first, rest) {
            (0x1b, [b'[', arrow @ b'A'..=b'D', rest @ ..]) => {
                bytes = rest;
                b"wsda"[(arrow - b'A') as usize]
            }
            (0x1b, [b'[', rest @ ..]) => {
                bytes = rest;
                continue;
            }
            (letter, _) => *letter,
        };
        keys.extend(match letter {
            b'w' => Some(Key::Move(Move::Up)),
            b'a' => Some(Key::Move(Move::Left)),
            b's' => Some(Key::Move(Move::Down)),
            b'd' => Some(Key::Move(Move::Right)),
            b'x' => Some(Key::Move(Move::Action)),
            b'z' => Some(Key::Undo),
            b'r' => Some(Key::Restart),
            b'q' => Some(Key::Quit),
            _ => None,
        });
    }
    keys
}

/// What is written, and what a level keeps for undo.
struct Script<'g, const N: usize> {
    game: &'g Game,
    text: Vec<u8>,
    frames: Frames<N>,
    history: VecDeque<Vec<Mask<N>>>,
}

impl<const N: usize, const M: usize> Audience<N, M> for Script<'_, N> {
    fn frame(&mut self, board: &Board<N, M>) {
        self.frames.write(&board.objects(), board.width, &mut self.text);
    }

    fn message(&mut self, rule: usize) {
        let message = self.game.rules.rules[rule].commands.message.as_deref().unwrap_or_default();
        self.line("! ", message);
    }

    fn keep(&mut self, before: &[Mask<N>]) {
        if self.history.len() == MOST_KEPT {
            self.history.pop_front();
        }
        self.history.push_back(before.to_vec());
    }
}

impl<const N: usize> Script<'_, N> {
    fn line(&mut self, front: &str, rest: &str) {
        self.text.extend([front, rest, "\n"].concat().bytes());
    }
}

/// Where a run is.
enum At<const N: usize, const M: usize> {
    Level(Stage<N, M>, Goes),
    Message,
    Ended,
}

struct Run<'g, const N: usize, const M: usize> {
    script: Script<'g, N>,
    turner: Turner<'g, N, M>,
    /// The number of the entry, and of the level.
    entry: usize,
    level: usize,
}

/// What a run with these keys writes.
pub fn play<const N: usize, const M: usize>(game: &Game, bytes: &[u8]) -> Vec<u8> {
    let script = Script { game, text: Vec::new(), frames: Frames::new(game), history: VecDeque::new() };
    let mut run: Run<N, M> = Run { script, turner: Turner::new(game), entry: 0, level: 0 };
    run.script.line("= ", &game.options.title);
    let mut at = run.enter(0);
    for key in keys(bytes) {
        if matches!(at, At::Ended) {
            break;
        }
        at = run.key(at, key);
    }
    if !matches!(at, At::Ended) {
        run.script.line("* end of keys", "");
    }
    run.script.text
}

impl<const N: usize, const M: usize> Run<'_, N, M> {
    /// An entry begins, or the end comes.
    fn enter(&mut self, entry: usize) -> At<N, M> {
        self.entry = entry;
        match self.script.game.entries.get(entry) {
            None => {
                self.script.line("* the end", "");
                At::Ended
            }
            Some(Entry::Message(text)) => {
                self.script.line("! ", text);
                At::Message
            }
            Some(Entry::Level(level)) => {
                self.level += 1;
                self.script.line("# level ", &self.level.to_string());
                self.script.history.clear();
                self.script.frames.begin();
                let mut stage = Stage::new(Board::of_level(level));
                let goes = self.with(&mut stage, |play| play.start(None));
                At::Level(stage, goes)
            }
        }
    }

    /// Does something with the level that is played.
    fn with<T>(&mut self, stage: &mut Stage<N, M>, act: impl FnOnce(&mut Play<'_, '_, Script<'_, N>, N, M>) -> T) -> T {
        act(&mut Play { turner: &mut self.turner, stage, audience: &mut self.script })
    }

    fn key(&mut self, at: At<N, M>, key: Key) -> At<N, M> {
        match (at, key) {
            (_, Key::Quit) => {
                self.script.line("* quit", "");
                At::Ended
            }
            (At::Message, Key::Move(Move::Action)) => self.enter(self.entry + 1),
            (At::Level(stage, goes), key) => self.key_in_level(stage, goes, key),
            (at, _) => at,
        }
    }

    fn key_in_level(&mut self, mut stage: Stage<N, M>, goes: Goes, key: Key) -> At<N, M> {
        let options = &self.script.game.options;
        let goes = match (key, goes) {
            (Key::Move(Move::Action), Goes::Waiting(pending)) => self.with(&mut stage, |play| play.dismiss(pending)),
            (_, Goes::Waiting(_)) => goes,
            (Key::Move(Move::Action), _) if options.has_no_action => goes,
            (Key::Undo, _) if options.has_no_undo => goes,
            (Key::Restart, _) if options.has_no_restart => goes,
            (Key::Undo, _) => {
                self.undo(&mut stage);
                goes
            }
            (Key::Restart, _) => self.with(&mut stage, |play| play.restart(None)),
            (Key::Move(input), _) => self.with(&mut stage, |play| play.key(input)),
            (Key::Quit, _) => goes,
        };
        if goes == Goes::Won {
            self.script.line(&format!("* level {} done", self.level), "");
            return self.enter(self.entry + 1);
        }
        At::Level(stage, goes)
    }

    fn undo(&mut self, stage: &mut Stage<N, M>) {
        if let Some(objects) = self.script.history.pop_back() {
            stage.board.show(&objects);
        }
        Audience::<N, M>::frame(&mut self.script, &stage.board);
    }
}
