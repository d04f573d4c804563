//! Moves, and the words of rules that stand for them.

/// A move of an object. The first four are directions too.
#[derive(Clone, Copy, PartialEq, Eq, Debug)]
pub enum Move {
    Up,
    Down,
    Left,
    Right,
    Action,
}

use Move::{Action, Down, Left, Right, Up};

pub const DIRECTIONS: [Move; 4] = [Up, Down, Left, Right];

impl Move {
    pub fn is_vertical(self) -> bool {
        matches!(self, Up | Down)
    }

    /// Whether a direction goes up or to the left.
    pub fn is_backward(self) -> bool {
        matches!(self, Up | Left)
    }

    fn opposite(self) -> Move {
        match self {
            Up => Down,
            Down => Up,
            Left => Right,
            Right => Left,
            Action => Action,
        }
    }

    /// The direction of `^`, where the rule is used in this one.
    fn to_the_left(self) -> Move {
        match self {
            Up => Left,
            Down => Right,
            Left => Down,
            Right => Up,
            Action => Action,
        }
    }
}

/// A movement word.
#[derive(Clone, Copy, PartialEq, Eq, Debug)]
pub enum Word {
    Fixed(Move),
    Stationary,
    Ahead,
    Back,
    Turned,
    TurnedBack,
    Parallel,
    Perpendicular,
    Moving,
    Orthogonal,
    Horizontal,
    Vertical,
}

impl Word {
    pub fn read(word: &str) -> Option<Word> {
        Some(match word {
            "up" => Word::Fixed(Up),
            "down" => Word::Fixed(Down),
            "left" => Word::Fixed(Left),
            "right" => Word::Fixed(Right),
            "action" => Word::Fixed(Action),
            "stationary" => Word::Stationary,
            ">" => Word::Ahead,
            "<" => Word::Back,
            "^" => Word::Turned,
            "v" => Word::TurnedBack,
            "parallel" => Word::Parallel,
            "perpendicular" => Word::Perpendicular,
            "moving" => Word::Moving,
            "orthogonal" => Word::Orthogonal,
            "horizontal" => Word::Horizontal,
            "vertical" => Word::Vertical,
            _ => return None,
        })
    }

    /// Whether it may mean several moves.
    pub fn is_choice(self) -> bool {
        use Word::*;
        matches!(self, Parallel | Perpendicular | Moving | Orthogonal | Horizontal | Vertical)
    }

    /// Whether it turns with the direction of the rule.
    pub fn turns(self) -> bool {
        use Word::*;
        matches!(self, Ahead | Back | Turned | TurnedBack | Parallel | Perpendicular)
    }

    /// What it may mean in a rule that is used in this direction. `None` is no move.
    pub fn meanings(self, direction: Move) -> Vec<Option<Move>> {
        let across = if direction.is_vertical() { [Left, Right] } else { [Up, Down] };
        let along = if direction.is_vertical() { [Up, Down] } else { [Left, Right] };
        let moves: &[Move] = match self {
            Word::Stationary => return vec![None],
            Word::Fixed(own) => &[own],
            Word::Ahead => &[direction],
            Word::Back => &[direction.opposite()],
            Word::Turned => &[direction.to_the_left()],
            Word::TurnedBack => &[direction.to_the_left().opposite()],
            Word::Parallel => &along,
            Word::Perpendicular => &across,
            Word::Moving => &[Up, Down, Left, Right, Action],
            Word::Orthogonal => &DIRECTIONS,
            Word::Horizontal => &[Left, Right],
            Word::Vertical => &[Up, Down],
        };
        moves.iter().copied().map(Some).collect()
    }
}

/// The directions that a word before the rows of a rule gives.
pub fn directions_of(word: &str) -> Option<&'static [Move]> {
    Some(match word {
        "up" => &[Up],
        "down" => &[Down],
        "left" => &[Left],
        "right" => &[Right],
        "horizontal" => &[Left, Right],
        "vertical" => &[Up, Down],
        "orthogonal" => &DIRECTIONS,
        _ => return None,
    })
}

const OTHER_KEY_WORDS: [&str; 8] = ["late", "no", "...", "startloop", "endloop", "random", "randomdir", "rigid"];

/// Whether a folded word is a key word of rules.
pub fn is_key_word(word: &str) -> bool {
    Word::read(word).is_some() || is_command(word) || OTHER_KEY_WORDS.contains(&word)
}

/// Whether a folded word is a command.
pub fn is_command(word: &str) -> bool {
    let is_sound = |number: &str| matches!(number, "0" | "1" | "2" | "3" | "4" | "5" | "6" | "7" | "8" | "9" | "10");
    matches!(word, "cancel" | "restart" | "again" | "checkpoint" | "win" | "message")
        || word.strip_prefix("sfx").is_some_and(is_sound)
}
