//! Runs of rules: places, tries, groups and loops.

use crate::board::{Board, Content};
use crate::masks::{Mask, moves_of_layer};
use crate::patterns::{CompiledReading, Group, Pattern, Rewrite, RowPattern, Stretch};
use crate::rule_lines::Rule;

const MOST_ROUNDS: usize = 200;
const MOST_REPEATS: usize = 200;

/// What the rules of a turn have asked for. The message is known by the number of its rule.
#[derive(Clone, Copy, Default)]
pub struct Queue {
    pub cancel: bool,
    pub restart: bool,
    pub again: bool,
    pub checkpoint: bool,
    pub win: bool,
    pub message: Option<usize>,
}

impl Queue {
    /// The commands of a rule enter, as far as they do.
    fn ask(&mut self, rule: &Rule, number: usize) {
        let commands = &rule.commands;
        if self.cancel || (self.restart && !commands.cancel) {
            return;
        }
        if commands.cancel || commands.restart {
            *self = Queue::default();
        }
        self.cancel |= commands.cancel;
        self.restart |= commands.restart;
        self.again |= commands.again;
        self.checkpoint |= commands.checkpoint;
        self.win |= commands.win;
        if commands.message.is_some() {
            self.message = self.message.or(Some(number));
        }
    }
}

/// Where each part of a row begins: cells by their numbers.
pub type Place = [u32; 3];

/// Lines of cells that run in one direction.
struct Lines {
    length: usize,
    /// From a line to the next one, and from a cell to the next one.
    stride: usize,
    step: usize,
}

/// What runs rules needs besides them.
pub struct Engine<'g, const N: usize, const M: usize> {
    rules: &'g [Rule],
    /// The objects of each layer.
    layers: Vec<Mask<N>>,
    /// Where rows fit in a try.
    places: Vec<Vec<Place>>,
    /// What has been asked for in the turn.
    pub queue: Queue,
    /// Whether a run ends where `cancel` is asked for, as nothing else matters then.
    pub ends_at_cancel: bool,
}

#[inline(always)]
fn cell_fits<const N: usize, const M: usize>(board: &Board<N, M>, pattern: &Pattern<N, M>, cell: usize) -> bool {
    let content = &board.cells[cell];
    content.objects.and(pattern.asked.objects) == pattern.wanted.objects
        && content.moves.and(pattern.asked.moves) == pattern.wanted.moves
        && pattern.any.iter().all(|any| content.objects.meets(*any))
}

#[inline(always)]
fn part_fits<const N: usize, const M: usize>(
    board: &Board<N, M>,
    cells: &[Pattern<N, M>],
    first: usize,
    step: usize,
) -> bool {
    cells.iter().enumerate().all(|(at, pattern)| cell_fits(board, pattern, first + at * step))
}

/// Whether a row still fits at a place.
#[inline(always)]
fn row_fits<const N: usize, const M: usize>(
    board: &Board<N, M>,
    row: &RowPattern<N, M>,
    place: &Place,
    step: usize,
) -> bool {
    let mut parts = row.parts.iter().zip(place);
    parts.all(|(part, first)| part_fits(board, &row.cells[part.0..part.1], *first as usize, step))
}

impl<'g, const N: usize, const M: usize> Engine<'g, N, M> {
    pub fn new(rules: &'g [Rule], layers: Vec<Mask<N>>) -> Engine<'g, N, M> {
        let rows = rules.iter().map(|rule| rule.left.len()).max().unwrap_or(0);
        Engine { rules, layers, places: vec![Vec::new(); rows], queue: Queue::default(), ends_at_cancel: false }
    }

    /// Runs rules from the top.
    pub fn run(&mut self, board: &mut Board<N, M>, stretches: &[Stretch<N, M>]) {
        let mut repeats = 0;
        for stretch in stretches {
            while self.pass(board, stretch) && stretch.is_loop && !self.is_ended() {
                if repeats == MOST_REPEATS {
                    return;
                }
                repeats += 1;
            }
            if self.is_ended() {
                return;
            }
        }
    }

    /// Whether nothing that comes in this turn matters any more.
    pub fn is_ended(&self) -> bool {
        self.queue.cancel && self.ends_at_cancel
    }

    fn pass(&mut self, board: &mut Board<N, M>, stretch: &Stretch<N, M>) -> bool {
        let mut has_changed = false;
        for group in &stretch.groups {
            has_changed |= self.run_group(board, group);
        }
        has_changed
    }

    fn run_group(&mut self, board: &mut Board<N, M>, group: &Group<N, M>) -> bool {
        let mut has_changed = false;
        for _ in 0..MOST_ROUNDS {
            if !self.round(board, group) {
                break;
            }
            has_changed = true;
        }
        has_changed
    }

    /// Tries each rule of a group once: whether something changed.
    fn round(&mut self, board: &mut Board<N, M>, group: &Group<N, M>) -> bool {
        let mut has_changed = false;
        for rule in group {
            for reading in &rule.readings {
                if !board.all.has(&reading.wanted) || !self.has_places(board, reading) {
                    continue;
                }
                if rule.asks {
                    self.queue.ask(&self.rules[rule.number], rule.number);
                }
                has_changed |= reading.rewrites && self.rewrite(board, reading);
            }
        }
        has_changed
    }

    /// Whether each row of a reading has a place. All are noted, where the reading rewrites.
    fn has_places(&mut self, board: &Board<N, M>, reading: &CompiledReading<N, M>) -> bool {
        let mut rows = reading.rows.iter().zip(&mut self.places);
        rows.all(|(row, places)| {
            places.clear();
            find_places(board, reading, row, places);
            !places.is_empty()
        })
    }

    /// Rewrites what the noted places say: whether something changed.
    #[inline(always)]
    fn rewrite(&mut self, board: &mut Board<N, M>, reading: &CompiledReading<N, M>) -> bool {
        let step = if reading.is_vertical { board.width } else { 1 };
        if let [row] = &reading.rows[..] {
            let mut has_changed = false;
            for place in &self.places[0] {
                if !has_changed || row_fits(board, row, place, step) {
                    has_changed |= rewrite_row(board, row, place, (step, &self.layers));
                }
            }
            return has_changed;
        }
        let combined = Combined { reading, places: &self.places, layers: &self.layers, step };
        combined.rewrite(board, &mut vec![[0; 3]; reading.rows.len()], reading.rows.len() - 1)
    }
}

/// Notes the places of a row, in their order; the first alone, where the reading rewrites nothing.
#[inline(always)]
fn find_places<const N: usize, const M: usize>(
    board: &Board<N, M>,
    reading: &CompiledReading<N, M>,
    row: &RowPattern<N, M>,
    places: &mut Vec<Place>,
) {
    let lines = match reading.is_vertical {
        true => Lines { length: board.height, stride: 1, step: board.width },
        false => Lines { length: board.width, stride: board.width, step: 1 },
    };
    let contents = if reading.is_vertical { &board.columns } else { &board.rows };
    if row.cells.len() > lines.length {
        return;
    }
    for (line, content) in contents.iter().enumerate() {
        if !content.has(&row.wanted) || !row.any.iter().all(|any| content.objects.meets(*any)) {
            continue;
        }
        find_on_line(board, row, (line * lines.stride, &lines), places);
        if !reading.rewrites && !places.is_empty() {
            return;
        }
    }
}

/// Notes the places of a row on a line.
#[inline(always)]
fn find_on_line<const N: usize, const M: usize>(
    board: &Board<N, M>,
    row: &RowPattern<N, M>,
    (begin, lines): (usize, &Lines),
    places: &mut Vec<Place>,
) {
    let cells = &row.cells[..row.parts[0].1];
    for at in 0..=lines.length - row.cells.len() {
        let first = begin + at * lines.step;
        if part_fits(board, cells, first, lines.step) {
            if row.parts.len() == 1 {
                places.push([first as u32, 0, 0]);
            } else {
                let spare = lines.length - row.cells.len() - at;
                find_further(board, row, ([first as u32, 0, 0], spare, lines.step), places);
            }
        }
    }
}

/// Notes the places whose first part begins there, with gaps that together take up as much as is to spare.
fn find_further<const N: usize, const M: usize>(
    board: &Board<N, M>,
    row: &RowPattern<N, M>,
    (place, spare, step): (Place, usize, usize),
    places: &mut Vec<Place>,
) {
    let (begin, end) = row.parts[1];
    for gap in 0..=spare {
        let second = place[0] as usize + (begin + gap) * step;
        if !part_fits(board, &row.cells[begin..end], second, step) {
            continue;
        }
        let Some(&(begin, end)) = row.parts.get(2) else {
            places.push([place[0], second as u32, 0]);
            continue;
        };
        let behind = place[0] as usize + (begin + gap) * step;
        for third in (0..=spare - gap).map(|gap| behind + gap * step) {
            if part_fits(board, &row.cells[begin..end], third, step) {
                places.push([place[0], second as u32, third as u32]);
            }
        }
    }
}

/// Rewrites the cells of a row at a place: whether one of them became different.
#[inline(always)]
fn rewrite_row<const N: usize, const M: usize>(
    board: &mut Board<N, M>,
    row: &RowPattern<N, M>,
    place: &Place,
    (step, layers): (usize, &[Mask<N>]),
) -> bool {
    let mut has_changed = false;
    for (part, first) in row.parts.iter().zip(place) {
        for (at, rewrite) in row.rewrites[part.0..part.1].iter().enumerate() {
            has_changed |= rewrite_cell(board, rewrite, *first as usize + at * step, layers);
        }
    }
    has_changed
}

#[inline(always)]
fn rewrite_cell<const N: usize, const M: usize>(
    board: &mut Board<N, M>,
    rewrite: &Rewrite<N, M>,
    cell: usize,
    layers: &[Mask<N>],
) -> bool {
    let before = board.cells[cell];
    let mut after = before;
    let is_barred = before.objects.meets(rewrite.barred);
    if is_barred {
        after.objects = after.objects.without(rewrite.barred);
        after = without_loose_moves(after, layers);
    }
    after.objects = after.objects.without(rewrite.cleared.objects).or(rewrite.set.objects);
    after.moves = after.moves.without(rewrite.cleared.moves).or(rewrite.set.moves);
    if is_barred {
        after = without_loose_moves(after, layers);
    }
    if after.objects == before.objects && after.moves == before.moves {
        return false;
    }
    board.set(cell, after);
    true
}

/// What a cell has, without moves of layers where nothing stands.
fn without_loose_moves<const N: usize, const M: usize>(mut cell: Content<N, M>, layers: &[Mask<N>]) -> Content<N, M> {
    for (layer, objects) in layers.iter().enumerate() {
        if !cell.objects.meets(*objects) {
            cell.moves = cell.moves.without(moves_of_layer(layer));
        }
    }
    cell
}

/// The combinations of a reading of several rows.
struct Combined<'r, const N: usize, const M: usize> {
    reading: &'r CompiledReading<N, M>,
    places: &'r [Vec<Place>],
    layers: &'r [Mask<N>],
    step: usize,
}

impl<const N: usize, const M: usize> Combined<'_, N, M> {
    fn fits(&self, board: &Board<N, M>, row: usize, place: &Place) -> bool {
        row_fits(board, &self.reading.rows[row], place, self.step)
    }

    /// Goes through the combinations with these places of the rows above a row: whether something changed. Where one of
    /// them fits no more, the others are left out, as nothing can change before it fits again.
    fn rewrite(&self, board: &mut Board<N, M>, chosen: &mut [Place], row: usize) -> bool {
        let mut has_changed = false;
        for place in &self.places[row] {
            if !self.fits(board, row, place) {
                continue;
            }
            chosen[row] = *place;
            let changes = if row > 0 { self.rewrite(board, chosen, row - 1) } else { self.apply(board, chosen) };
            has_changed |= changes;
            if changes && !(row + 1..chosen.len()).all(|above| self.fits(board, above, &chosen[above])) {
                break;
            }
        }
        has_changed
    }

    fn apply(&self, board: &mut Board<N, M>, chosen: &[Place]) -> bool {
        let mut has_changed = false;
        for (row, place) in self.reading.rows.iter().zip(chosen) {
            has_changed |= rewrite_row(board, row, place, (self.step, self.layers));
        }
        has_changed
    }
}
