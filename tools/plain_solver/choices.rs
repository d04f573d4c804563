//! What a rule leaves open, and the readings that decide it.

use crate::names::{Names, Thing};
use crate::rule_lines::{Item, Row, Rule};
use crate::text::{Fault, fault};
use crate::words::{Move, Word};

/// An item of a rule, with the choices that it takes part in.
#[derive(Clone, Copy)]
pub struct Bound {
    pub is_barred: bool,
    pub thing: Thing,
    pub word: Option<Word>,
    /// The number of the occurrence that chooses the move of its word.
    pub move_choice: Option<usize>,
    /// The number of the occurrence that chooses the member of its property.
    pub member_choice: Option<usize>,
}

pub type BoundRow = Vec<Vec<Bound>>;

/// The items of both sides, and the occurrences on the left, in the order of the text.
#[derive(Default)]
pub struct Choices {
    pub left: Vec<BoundRow>,
    pub right: Vec<BoundRow>,
    words: Vec<Occurrence<Word>>,
    properties: Vec<Occurrence<Thing>>,
}

/// A word or a property on the left that leaves something open.
struct Occurrence<T> {
    what: T,
    /// The number of its cell, and what stands behind the word.
    cell: usize,
    thing: Thing,
}

/// One way of choosing.
pub struct Reading {
    pub direction: Move,
    pub moves: Vec<Option<Move>>,
    pub members: Vec<usize>,
}

const MOST_READINGS: u64 = 4096;
const MOST_READINGS_OF_ALL: u64 = 65_536;

/// Whether a property stays whole: its members share a layer, and each cell with it on the right has it on the left.
fn is_loose(property: Thing, left: &[Row], right: &[Row], names: &Names) -> bool {
    let has = |items: &[Item]| items.iter().any(|item| !item.is_barred && item.thing == property);
    let mut pairs = left.iter().flatten().zip(right.iter().flatten());
    names.shared_layer(property).is_some() && pairs.all(|(left, right)| has(&left.items) || !has(&right.items))
}

impl Choices {
    /// Finds what decides each choice of the right. Nothing, if one of them is left undecided.
    pub fn bind(left: &[Row], right: &[Row], names: &Names) -> Option<Choices> {
        let mut choices = Choices::default();
        let is_fixed = |item: &Item| {
            matches!(item.thing, Thing::Property(_)) && !item.is_barred && !is_loose(item.thing, left, right, names)
        };
        let mut cell = 0;
        for row in left {
            let mut bound = Vec::new();
            for own in row {
                bound.push(own.items.iter().map(|item| choices.occur(item, cell, is_fixed(item))).collect());
                cell += 1;
            }
            choices.left.push(bound);
        }
        cell = 0;
        for row in right {
            let mut bound = Vec::new();
            for own in row {
                let items = own.items.iter().map(|item| choices.decide(item, cell, is_fixed(item)));
                bound.push(items.collect::<Option<Vec<Bound>>>()?);
                cell += 1;
            }
            choices.right.push(bound);
        }
        Some(choices)
    }

    /// Notes the occurrences of an item on the left.
    fn occur(&mut self, item: &Item, cell: usize, is_fixed: bool) -> Bound {
        let mut bound = Bound::unbound(item);
        if let Some(word) = item.word.filter(|word| word.is_choice()) {
            bound.move_choice = Some(self.words.len());
            self.words.push(Occurrence { what: word, cell, thing: item.thing });
        }
        if is_fixed {
            bound.member_choice = Some(self.properties.len());
            self.properties.push(Occurrence { what: item.thing, cell, thing: item.thing });
        }
        bound
    }

    /// Finds the occurrences that decide an item on the right.
    fn decide(&self, item: &Item, cell: usize, is_fixed: bool) -> Option<Bound> {
        let mut bound = Bound::unbound(item);
        if let Some(word) = item.word.filter(|word| word.is_choice()) {
            let is_own = |own: &Occurrence<Word>| own.cell == cell && own.thing == item.thing;
            bound.move_choice = Some(decider(&self.words, word, is_own)?);
        }
        if is_fixed {
            bound.member_choice = Some(decider(&self.properties, item.thing, |own| own.cell == cell)?);
        }
        Some(bound)
    }

    /// How many readings there are in a direction, as far as numbers go.
    fn count(&self, names: &Names) -> u64 {
        let moves = self.words.iter().map(|word| word.what.meanings(Move::Up).len());
        let members = self.properties.iter().map(|property| names.objects(property.what).len());
        moves.chain(members).fold(1, |count, more| count.saturating_mul(more as u64))
    }

    /// The readings in a direction, in their order.
    fn readings_in(&self, direction: Move, names: &Names) -> Vec<Reading> {
        let moves: Vec<_> = self.words.iter().map(|word| word.what.meanings(direction)).collect();
        let members: Vec<_> = self.properties.iter().map(|property| names.objects(property.what)).collect();
        let members = combinations(&members);
        let with_moves = |moves: Vec<Option<Move>>| {
            members.iter().map(move |members| Reading { direction, moves: moves.clone(), members: members.clone() })
        };
        combinations(&moves).into_iter().flat_map(with_moves).collect()
    }
}

impl Bound {
    fn unbound(item: &Item) -> Bound {
        Bound { is_barred: item.is_barred, thing: item.thing, word: item.word, move_choice: None, member_choice: None }
    }
}

/// The occurrence of the same cell, or else the only one.
fn decider<T: PartialEq>(all: &[Occurrence<T>], what: T, is_own: impl Fn(&Occurrence<T>) -> bool) -> Option<usize> {
    let mut fitting = (0..all.len()).filter(|at| all[*at].what == what);
    let own = fitting.clone().find(|at| is_own(&all[*at]));
    own.or_else(|| fitting.next().filter(|_| fitting.next().is_none()))
}

/// All ways of taking one of each list; the last list changes fastest.
fn combinations<T: Copy>(lists: &[Vec<T>]) -> Vec<Vec<T>> {
    let mut all = vec![Vec::new()];
    for list in lists {
        let longer = |taken: &Vec<T>| {
            let taken = taken.clone();
            list.iter().map(move |one| [&taken[..], &[*one]].concat())
        };
        all = all.iter().flat_map(longer).collect();
    }
    all
}

/// The readings of each rule that are possible.
pub fn readings(rules: &[Rule], names: &Names) -> Result<Vec<Vec<Reading>>, Fault> {
    let mut together = 0;
    for rule in rules {
        let count = rule.choices.count(names).saturating_mul(rule.directions.len() as u64);
        together += count.min(MOST_READINGS_OF_ALL + 1);
        if count > MOST_READINGS || together > MOST_READINGS_OF_ALL {
            return fault(rule.line, "GM4 TooManyReadings");
        }
    }
    let mut all = Vec::new();
    for rule in rules {
        let readings = rule.directions.iter().flat_map(|direction| rule.choices.readings_in(*direction, names));
        let possible: Vec<Reading> = readings.filter(|reading| is_possible(&rule.choices, reading, names)).collect();
        if possible.is_empty() {
            return fault(rule.line, "GM5 Impossible");
        }
        all.push(possible);
    }
    Ok(all)
}

/// Whether no cell of a side has two names of one layer.
fn is_possible(choices: &Choices, reading: &Reading, names: &Names) -> bool {
    let mut cells = choices.left.iter().chain(&choices.right).flatten();
    cells.all(|cell| {
        let mut layers = Vec::new();
        for item in cell.iter().filter(|item| !item.is_barred) {
            match (item.member_choice, item.thing) {
                (Some(choice), _) => layers.push(names.layers[reading.members[choice]]),
                (None, Thing::Property(_)) => layers.extend(names.shared_layer(item.thing)),
                (None, thing) => layers.extend(names.objects(thing).iter().map(|object| names.layers[*object])),
            }
        }
        layers.sort();
        layers.windows(2).all(|pair| pair[0] != pair[1])
    })
}
