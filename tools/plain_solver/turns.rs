//! Turns: moves are given, rules run, objects move, and late rules run.

use crate::board::{Board, Content};
use crate::engine::Engine;
use crate::game::{Game, Quantity};
use crate::masks::{Mask, layer_and_move, move_bit};
use crate::names::Thing;
use crate::patterns::{Stretch, compile, layer_mask, object_mask};
use crate::words::Move;

/// What a turn is. A message is known by the number of its rule.
pub enum Outcome {
    Blocked(Option<usize>),
    Restart(Option<usize>),
    Done(Done),
}

#[derive(Clone, Copy)]
pub struct Done {
    pub has_changed: bool,
    pub wins: bool,
    pub goes_on: bool,
    pub checkpoint: bool,
    pub message: Option<usize>,
}

/// An object on its way.
#[derive(Clone, Copy)]
struct Mover {
    cell: usize,
    layer: usize,
    target: usize,
}

/// What cells a win condition speaks of: those that have all of these objects, or one of them.
#[derive(Clone, Copy)]
struct Matcher<const N: usize> {
    objects: Mask<N>,
    all: bool,
}

impl<const N: usize> Matcher<N> {
    fn new(game: &Game, thing: Thing) -> Matcher<N> {
        let objects = object_mask(&game.names.objects(thing));
        Matcher { objects, all: matches!(thing, Thing::Aggregate(_)) }
    }

    #[inline(always)]
    fn fits(self, cell: Mask<N>) -> bool {
        if self.all { cell.has(self.objects) } else { cell.meets(self.objects) }
    }
}

struct Condition<const N: usize> {
    quantity: Quantity,
    what: Matcher<N>,
    on: Option<Matcher<N>>,
}

/// A game as it is played.
pub struct Turner<'g, const N: usize, const M: usize> {
    pub game: &'g Game,
    engine: Engine<'g, N, M>,
    plain: Vec<Stretch<N, M>>,
    late: Vec<Stretch<N, M>>,
    /// The objects of each layer.
    layers: Vec<Mask<N>>,
    pub player: Mask<N>,
    conditions: Vec<Condition<N>>,
    /// Moves that have ended, and the objects that are on their way.
    ended: Vec<(usize, Mask<M>)>,
    movers: Vec<Mover>,
}

impl<'g, const N: usize, const M: usize> Turner<'g, N, M> {
    pub fn new(game: &'g Game) -> Turner<'g, N, M> {
        let layers: Vec<Mask<N>> = (0..game.names.layer_count).map(|layer| layer_mask(&game.names, layer)).collect();
        let mut engine = Engine::new(&game.rules.rules, layers.clone());
        engine.ends_at_cancel = !game.options.wants_movement;
        let conditions = game.wins.iter().map(|win| Condition {
            quantity: win.quantity,
            what: Matcher::new(game, win.what),
            on: win.on.map(|on| Matcher::new(game, on)),
        });
        Turner {
            game,
            engine,
            plain: compile(game, false),
            late: compile(game, true),
            player: object_mask(&game.names.objects(game.names.player)),
            conditions: conditions.collect(),
            layers,
            ended: Vec::new(),
            movers: Vec::new(),
        }
    }

    /// Takes a turn on a board that is as it was before, and has no touched cells. A turn that isn't done leaves it so.
    /// The players of a key's turn are those in these cells.
    pub fn turn(&mut self, board: &mut Board<N, M>, before: &[Mask<N>], input: Option<(Move, &[u32])>) -> Outcome {
        self.engine.queue = Default::default();
        if let Some((own, players)) = input {
            self.give_moves(board, own, players);
        }
        self.engine.run(board, &self.plain);
        if !self.engine.is_ended() {
            self.move_objects(board);
            self.engine.run(board, &self.late);
        }
        let queue = self.engine.queue;
        let message = queue.message;
        if input.is_some_and(|(_, players)| self.game.options.wants_movement && self.all_stay(board, players)) {
            self.take_back(board, before);
            return Outcome::Blocked(None);
        }
        if queue.cancel || queue.restart {
            self.take_back(board, before);
            return if queue.cancel { Outcome::Blocked(message) } else { Outcome::Restart(message) };
        }
        let has_changed =
            board.touched.iter().any(|cell| board.cells[*cell as usize].objects != before[*cell as usize]);
        let wins = queue.win || (!self.conditions.is_empty() && self.holds(board));
        let goes_on = queue.again && has_changed;
        Outcome::Done(Done { has_changed, wins, goes_on, checkpoint: queue.checkpoint, message })
    }

    fn take_back(&mut self, board: &mut Board<N, M>, before: &[Mask<N>]) {
        self.ended.clear();
        board.end_moves(&mut self.ended);
        while let Some(cell) = board.touched.pop() {
            board.cells[cell as usize].objects = before[cell as usize];
        }
    }

    /// Gives each object of Player the move of a key.
    fn give_moves(&self, board: &mut Board<N, M>, own: Move, players: &[u32]) {
        for &cell in players {
            let mut content = board.cells[cell as usize];
            let mut players = content.objects.and(self.player);
            while let Some(object) = players.take_first() {
                content.moves.insert(move_bit(self.game.names.layers[object], own));
            }
            board.set(cell as usize, content);
        }
    }

    /// The cells that have a player.
    pub fn find_players(&self, objects: &[Mask<N>], players: &mut Vec<u32>) {
        players.clear();
        players.extend((0..objects.len()).filter(|cell| objects[*cell].meets(self.player)).map(|cell| cell as u32));
    }

    /// Moves all objects that can go, as often as one of them makes room for another.
    fn move_objects(&mut self, board: &mut Board<N, M>) {
        self.find_movers(board);
        let mut has_moved = true;
        while has_moved {
            let count = self.movers.len();
            let layers = &self.layers;
            self.movers.retain(|mover| !moves(board, *mover, layers[mover.layer]));
            has_moved = self.movers.len() < count;
        }
    }

    /// Ends all moves, and notes what would move, down the columns.
    fn find_movers(&mut self, board: &mut Board<N, M>) {
        self.ended.clear();
        board.end_moves(&mut self.ended);
        self.movers.clear();
        for (cell, moves) in &self.ended {
            let mut left = *moves;
            while let Some(bit) = left.take_first() {
                let (layer, own) = layer_and_move(bit);
                if let Some(target) = neighbour(board, *cell, own) {
                    self.movers.push(Mover { cell: *cell, layer, target });
                }
            }
        }
    }

    /// Whether there were players, and each cell that had one still has one.
    fn all_stay(&self, board: &Board<N, M>, players: &[u32]) -> bool {
        let has_player = |cell: &u32| board.cells[*cell as usize].objects.meets(self.player);
        !players.is_empty() && players.iter().all(has_player)
    }

    /// Whether all win conditions hold.
    fn holds(&self, board: &Board<N, M>) -> bool {
        self.conditions.iter().all(|condition| {
            let what = condition.what;
            let on = |cell: &Content<N, M>| condition.on.is_none_or(|on| on.fits(cell.objects));
            match condition.quantity {
                Quantity::No => !any_cell(board, what, on),
                Quantity::Some => any_cell(board, what, on),
                Quantity::All => !any_cell(board, what, |cell| !on(cell)),
            }
        })
    }
}

/// Whether a cell of these is so.
#[inline(always)]
fn any_cell<const N: usize, const M: usize>(
    board: &Board<N, M>,
    what: Matcher<N>,
    is_so: impl Fn(&Content<N, M>) -> bool,
) -> bool {
    let mut rows = board.rows.iter().zip(board.cells.chunks_exact(board.width));
    rows.any(|(row, cells)| {
        row.objects.meets(what.objects) && cells.iter().any(|cell| what.fits(cell.objects) && is_so(cell))
    })
}

/// The cell next to a cell in the direction of a move, if it is one and the cell is on the board.
#[inline(always)]
fn neighbour<const N: usize, const M: usize>(board: &Board<N, M>, cell: usize, own: usize) -> Option<usize> {
    match own {
        0 if cell >= board.width => Some(cell - board.width),
        1 if cell + board.width < board.cells.len() => Some(cell + board.width),
        2 if !cell.is_multiple_of(board.width) => Some(cell - 1),
        3 if !(cell + 1).is_multiple_of(board.width) => Some(cell + 1),
        _ => None,
    }
}

/// Moves an object, if there is room for it.
#[inline(always)]
fn moves<const N: usize, const M: usize>(board: &mut Board<N, M>, mover: Mover, layer: Mask<N>) -> bool {
    let target = board.cells[mover.target].objects;
    if target.meets(layer) {
        return false;
    }
    let own = board.cells[mover.cell].objects;
    board.set(mover.cell, Content { objects: own.without(layer), moves: Mask::EMPTY });
    board.set(mover.target, Content { objects: target.or(own.and(layer)), moves: Mask::EMPTY });
    true
}
