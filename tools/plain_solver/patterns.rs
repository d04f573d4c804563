//! Readings of rules as bits of cells.

use crate::board::Content;
use crate::choices::{Bound, Reading};
use crate::game::Game;
use crate::masks::{Mask, move_bit, moves_of_layer};
use crate::names::{Names, Thing};
use crate::rule_lines::{Part, Rule};
use crate::words::Move;

/// What a cell of a rule asks of a cell of the board.
pub struct Pattern<const N: usize, const M: usize> {
    /// Of these, the cell has what is wanted, and nothing else.
    pub asked: Content<N, M>,
    pub wanted: Content<N, M>,
    /// The cell has one of each.
    pub any: Vec<Mask<N>>,
}

/// What becomes of a cell.
pub struct Rewrite<const N: usize, const M: usize> {
    pub barred: Mask<N>,
    pub cleared: Content<N, M>,
    pub set: Content<N, M>,
}

/// A row, turned so that it runs to the right or downwards.
pub struct RowPattern<const N: usize, const M: usize> {
    pub cells: Vec<Pattern<N, M>>,
    pub rewrites: Vec<Rewrite<N, M>>,
    /// Where its parts begin and end, which ellipses part.
    pub parts: Vec<(usize, usize)>,
    /// What a line lacks never, where the row has a place on it.
    pub wanted: Content<N, M>,
    pub any: Vec<Mask<N>>,
}

impl<const N: usize, const M: usize> RowPattern<N, M> {
    fn empty() -> RowPattern<N, M> {
        let (cells, rewrites, any) = (Vec::new(), Vec::new(), Vec::new());
        RowPattern { cells, rewrites, parts: vec![(0, 0)], wanted: Content::EMPTY, any }
    }
}

pub struct CompiledReading<const N: usize, const M: usize> {
    pub is_vertical: bool,
    pub rows: Vec<RowPattern<N, M>>,
    pub wanted: Content<N, M>,
    pub rewrites: bool,
}

pub struct CompiledRule<const N: usize, const M: usize> {
    pub readings: Vec<CompiledReading<N, M>>,
    /// Its number in the game, by which its commands are found.
    pub number: usize,
    pub asks: bool,
}

pub type Group<const N: usize, const M: usize> = Vec<CompiledRule<N, M>>;

/// The groups of a run, alone or in a loop.
pub struct Stretch<const N: usize, const M: usize> {
    pub groups: Vec<Group<N, M>>,
    pub is_loop: bool,
}

/// The objects of a set as bits.
pub fn object_mask<const N: usize>(objects: &[usize]) -> Mask<N> {
    let mut mask = Mask::EMPTY;
    objects.iter().for_each(|object| mask.insert(*object));
    mask
}

/// The objects that share a layer.
pub fn layer_mask<const N: usize>(names: &Names, layer: usize) -> Mask<N> {
    let objects: Vec<usize> = (0..names.layers.len()).filter(|object| names.layers[*object] == layer).collect();
    object_mask(&objects)
}

/// Compiles the plain rules of a game, or its late ones.
pub fn compile<const N: usize, const M: usize>(game: &Game, late: bool) -> Vec<Stretch<N, M>> {
    let group = |numbers: &Vec<usize>| -> Option<Group<N, M>> {
        let is_asked = game.rules.rules[numbers[0]].is_late == late;
        is_asked.then(|| numbers.iter().map(|number| compile_rule(game, *number)).collect())
    };
    let stretch = |part: &Part| match part {
        Part::Group(numbers) => Stretch { groups: group(numbers).into_iter().collect(), is_loop: false },
        Part::Loop(groups) => Stretch { groups: groups.iter().filter_map(group).collect(), is_loop: true },
    };
    game.rules.parts.iter().map(stretch).filter(|stretch| !stretch.groups.is_empty()).collect()
}

fn compile_rule<const N: usize, const M: usize>(game: &Game, number: usize) -> CompiledRule<N, M> {
    let rule = &game.rules.rules[number];
    let compile_one = |reading: &Reading| Compiler { names: &game.names, rule, reading }.compile();
    let readings = game.readings[number].iter().map(compile_one).collect();
    CompiledRule { readings, number, asks: rule.commands.ask() }
}

struct Compiler<'g> {
    names: &'g Names,
    rule: &'g Rule,
    reading: &'g Reading,
}

/// A name of a cell in a reading: a layer, the object if one is named, and the move if one is asked for.
struct Named {
    layer: usize,
    object: Option<usize>,
    members: Vec<usize>,
    own_move: Option<Option<Move>>,
}

impl Compiler<'_> {
    fn compile<const N: usize, const M: usize>(&self) -> CompiledReading<N, M> {
        let rows: Vec<RowPattern<N, M>> = (0..self.rule.left.len()).map(|row| self.row(row)).collect();
        let mut wanted = Content::EMPTY;
        rows.iter().for_each(|row| wanted.add(row.wanted));
        let is_vertical = self.reading.direction.is_vertical();
        CompiledReading { is_vertical, rows, wanted, rewrites: !self.rule.right.is_empty() }
    }

    fn row<const N: usize, const M: usize>(&self, row: usize) -> RowPattern<N, M> {
        let count = self.rule.left[row].len();
        let mut order: Vec<usize> = (0..count).collect();
        if self.reading.direction.is_backward() {
            order.reverse();
        }
        let mut compiled = RowPattern::empty();
        for cell in order {
            let end = compiled.cells.len();
            if self.rule.left[row][cell].is_ellipsis {
                compiled.parts.push((end, end));
                continue;
            }
            let left = &self.rule.choices.left[row][cell];
            let pattern = self.pattern(left);
            compiled.wanted.add(pattern.wanted);
            compiled.any.extend(&pattern.any);
            compiled.cells.push(pattern);
            compiled.parts.last_mut().into_iter().for_each(|part| part.1 = end + 1);
            if let Some(right) = self.rule.choices.right.get(row) {
                compiled.rewrites.push(self.rewrite(left, &right[cell]));
            }
        }
        compiled
    }

    /// The names of a cell of a side, `no` aside.
    fn named(&self, items: &[Bound]) -> Vec<Named> {
        let mut named = Vec::new();
        for item in items.iter().filter(|item| !item.is_barred) {
            let own_move = item.word.map(|word| match item.move_choice {
                Some(choice) => self.reading.moves[choice],
                None => word.meanings(self.reading.direction)[0],
            });
            let layers = &self.names.layers;
            let alone = |object| Named { layer: layers[object], object: Some(object), members: Vec::new(), own_move };
            match (item.member_choice, item.thing) {
                (Some(choice), _) => named.push(alone(self.reading.members[choice])),
                (None, Thing::Property(_)) => {
                    let members = self.names.objects(item.thing);
                    named.push(Named { layer: layers[members[0]], object: None, members, own_move });
                }
                (None, thing) => named.extend(self.names.objects(thing).into_iter().map(alone)),
            }
        }
        named
    }

    fn barred<const N: usize>(&self, items: &[Bound]) -> Mask<N> {
        let barred = items.iter().filter(|item| item.is_barred);
        object_mask(&barred.flat_map(|item| self.names.objects(item.thing)).collect::<Vec<_>>())
    }

    fn pattern<const N: usize, const M: usize>(&self, items: &[Bound]) -> Pattern<N, M> {
        let mut wanted = Content::EMPTY;
        let mut still: Mask<M> = Mask::EMPTY;
        let mut any = Vec::new();
        for name in self.named(items) {
            match name.object {
                Some(object) => wanted.objects.insert(object),
                None => any.push(object_mask(&name.members)),
            }
            match name.own_move {
                Some(Some(own)) => wanted.moves.insert(move_bit(name.layer, own)),
                Some(None) => still = still.or(moves_of_layer(name.layer)),
                None => {}
            }
        }
        let barred = self.barred(items);
        let asked = Content { objects: wanted.objects.or(barred), moves: wanted.moves.or(still) };
        if wanted.objects.meets(barred) {
            any.push(Mask::EMPTY);
        }
        Pattern { asked, wanted, any }
    }

    fn rewrite<const N: usize, const M: usize>(&self, left: &[Bound], right: &[Bound]) -> Rewrite<N, M> {
        let (before, after) = (self.named(left), self.named(right));
        let mut rewrite = Rewrite { barred: self.barred(right), cleared: Content::EMPTY, set: Content::EMPTY };
        for name in &after {
            if let Some(object) = name.object {
                rewrite.cleared.objects = rewrite.cleared.objects.or(layer_mask(self.names, name.layer));
                rewrite.set.objects.insert(object);
            }
            let was = before.iter().find(|was| was.layer == name.layer);
            if name.own_move.is_some() || was.is_none_or(|was| was.own_move.is_some()) {
                rewrite.cleared.moves = rewrite.cleared.moves.or(moves_of_layer(name.layer));
            }
            if let Some(Some(own)) = name.own_move {
                rewrite.set.moves.insert(move_bit(name.layer, own));
            }
        }
        for was in before.iter().filter(|was| after.iter().all(|name| name.layer != was.layer)) {
            rewrite.cleared.objects = rewrite.cleared.objects.or(layer_mask(self.names, was.layer));
            rewrite.cleared.moves = rewrite.cleared.moves.or(moves_of_layer(was.layer));
        }
        rewrite
    }
}
