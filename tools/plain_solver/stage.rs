//! A level as it is played: keys, messages, again turns and starts.

use crate::board::{Board, shorten};
use crate::masks::Mask;
use crate::turns::{Done, Outcome, Turner};
use crate::words::Move;

const MOST_AGAIN: u32 = 200;

/// What a message goes on with once it is dismissed: again turns with how many may follow.
#[derive(Clone, Copy, PartialEq, Eq, Hash, Debug)]
pub enum Pending {
    Nothing,
    LevelDone,
    KeyAgain(u32),
    StartAgain(u32),
}

/// Where a key leads.
#[derive(Clone, Copy, PartialEq, Eq, Hash, Debug)]
pub enum Goes {
    Playing,
    Waiting(Pending),
    Won,
}

/// Who sees what a level shows.
pub trait Audience<const N: usize, const M: usize> {
    fn frame(&mut self, board: &Board<N, M>);
    /// The message of the rule of that number.
    fn message(&mut self, rule: usize);
    /// A board is kept for undo.
    fn keep(&mut self, before: &[Mask<N>]);
}

/// The boards of a level.
pub struct Stage<const N: usize, const M: usize> {
    pub board: Board<N, M>,
    /// The objects before the last turn.
    pub before: Vec<Mask<N>>,
    /// The cells that turns before the last one have touched.
    pub earlier: Vec<u32>,
    pub restart_board: Vec<Mask<N>>,
    /// Whether a checkpoint has been set.
    pub has_checkpoint: bool,
    /// The cells that had a player before the last turn of a key, if they are known.
    players: Vec<u32>,
    pub knows_players: bool,
}

/// A level that is played before somebody.
pub struct Play<'p, 'g, A, const N: usize, const M: usize> {
    pub turner: &'p mut Turner<'g, N, M>,
    pub stage: &'p mut Stage<N, M>,
    pub audience: &'p mut A,
}

impl<const N: usize, const M: usize> Stage<N, M> {
    pub fn new(board: Board<N, M>) -> Stage<N, M> {
        let objects = board.objects();
        Stage {
            board,
            before: objects.clone(),
            earlier: Vec::new(),
            restart_board: objects,
            has_checkpoint: false,
            players: Vec::new(),
            knows_players: false,
        }
    }

    /// The next turn begins with the board as it is.
    fn settle(&mut self) {
        for &cell in &self.board.touched {
            self.before[cell as usize] = self.board.cells[cell as usize].objects;
        }
        self.knows_players = false;
        self.earlier.append(&mut self.board.touched);
        if self.earlier.len() > 8 * self.before.len() {
            shorten(&mut self.earlier);
        }
        self.board.look();
    }
}

impl<A: Audience<N, M>, const N: usize, const M: usize> Play<'_, '_, A, N, M> {
    fn turn(&mut self, input: Option<Move>) -> Outcome {
        if !self.stage.board.touched.is_empty() {
            self.stage.settle();
        }
        let stage = &mut *self.stage;
        if input.is_some() && !stage.knows_players {
            self.turner.find_players(&stage.before, &mut stage.players);
            stage.knows_players = true;
        }
        self.turner.turn(&mut stage.board, &stage.before, input.map(|own| (own, &stage.players[..])))
    }

    /// The board of a done turn counts, and is shown.
    fn show(&mut self, done: &Done) {
        if done.checkpoint {
            self.stage.restart_board = self.stage.board.objects();
            self.stage.has_checkpoint = true;
        }
        self.audience.frame(&self.stage.board);
    }

    /// The start of the level, with a message from before or without one.
    pub fn start(&mut self, given: Option<usize>) -> Goes {
        let unasked = Done { has_changed: false, wins: false, goes_on: false, checkpoint: false, message: None };
        let mut done = unasked;
        if self.turner.game.options.runs_at_start {
            done = match self.turn(None) {
                Outcome::Blocked(message) | Outcome::Restart(message) => Done { message, ..unasked },
                Outcome::Done(done) => done,
            };
        }
        self.show(&done);
        let started = self.started(done.message.or(given), done.goes_on, MOST_AGAIN);
        started.unwrap_or_else(|| self.start_again(MOST_AGAIN))
    }

    /// Where a start leads after a frame; nothing, if again turns follow.
    fn started(&mut self, message: Option<usize>, goes_on: bool, left: u32) -> Option<Goes> {
        match message {
            Some(message) => {
                self.audience.message(message);
                Some(Goes::Waiting(if goes_on { Pending::StartAgain(left) } else { Pending::Nothing }))
            }
            None => (!goes_on).then_some(Goes::Playing),
        }
    }

    /// The again turns of a start.
    fn start_again(&mut self, left: u32) -> Goes {
        for left in (0..left).rev() {
            let Outcome::Done(done) = self.turn(None) else {
                return Goes::Playing;
            };
            if !done.has_changed {
                return Goes::Playing;
            }
            self.show(&done);
            if let Some(goes) = self.started(done.message, done.goes_on, left) {
                return goes;
            }
        }
        Goes::Playing
    }

    /// A direction or the action. No message waits.
    pub fn key(&mut self, input: Move) -> Goes {
        match self.turn(Some(input)) {
            Outcome::Blocked(message) => {
                self.audience.frame(&self.stage.board);
                self.told(message, Pending::Nothing).unwrap_or(Goes::Playing)
            }
            Outcome::Restart(message) => self.restart(message),
            Outcome::Done(done) => {
                if done.has_changed {
                    self.audience.keep(&self.stage.before);
                }
                self.show(&done);
                self.went(&done, MOST_AGAIN).unwrap_or_else(|| self.key_again(MOST_AGAIN))
            }
        }
    }

    /// A message waits, if there is one.
    fn told(&mut self, message: Option<usize>, pending: Pending) -> Option<Goes> {
        self.audience.message(message?);
        Some(Goes::Waiting(pending))
    }

    /// Where a done turn of a key leads after its frame; nothing, if again turns follow.
    fn went(&mut self, done: &Done, left: u32) -> Option<Goes> {
        let (pending, goes) = match (done.wins, done.goes_on) {
            (true, _) => (Pending::LevelDone, Some(Goes::Won)),
            (false, true) => (Pending::KeyAgain(left), None),
            (false, false) => (Pending::Nothing, Some(Goes::Playing)),
        };
        self.told(done.message, pending).or(goes)
    }

    /// The again turns of a key.
    fn key_again(&mut self, left: u32) -> Goes {
        for left in (0..left).rev() {
            let done = match self.turn(None) {
                Outcome::Blocked(_) => return Goes::Playing,
                Outcome::Restart(message) => {
                    self.go_back();
                    return self.start(message);
                }
                Outcome::Done(done) => done,
            };
            if !done.has_changed && !done.wins {
                return Goes::Playing;
            }
            self.show(&done);
            if let Some(goes) = self.went(&done, left) {
                return goes;
            }
        }
        Goes::Playing
    }

    /// The level restarts; its board is kept for undo.
    pub fn restart(&mut self, message: Option<usize>) -> Goes {
        self.audience.keep(&self.stage.board.objects());
        self.go_back();
        self.start(message)
    }

    fn go_back(&mut self) {
        self.stage.board.show(&self.stage.restart_board);
    }

    /// Dismisses a message.
    pub fn dismiss(&mut self, pending: Pending) -> Goes {
        match pending {
            Pending::Nothing => Goes::Playing,
            Pending::LevelDone => Goes::Won,
            Pending::KeyAgain(left) => self.key_again(left),
            Pending::StartAgain(left) => self.start_again(left),
        }
    }
}
