//! The lines of RULES, as they are written.

use crate::choices::Choices;
use crate::names::{Names, Thing};
use crate::text::{Fault, Line, fault, folded, tokens};
use crate::words::{DIRECTIONS, Move, Word, directions_of, is_command, is_key_word};

/// What a rule asks for besides its rewriting.
#[derive(Clone, Default, Debug)]
pub struct Commands {
    pub cancel: bool,
    pub restart: bool,
    pub again: bool,
    pub checkpoint: bool,
    pub win: bool,
    pub message: Option<String>,
}

impl Commands {
    /// Whether anything is asked for that is not read past.
    pub fn ask(&self) -> bool {
        self.cancel || self.restart || self.again || self.checkpoint || self.win || self.message.is_some()
    }
}

#[derive(Clone, Copy)]
pub struct Item {
    pub is_barred: bool,
    pub word: Option<Word>,
    pub thing: Thing,
}

#[derive(Default)]
pub struct Cell {
    pub items: Vec<Item>,
    pub is_ellipsis: bool,
    word_count: usize,
}

pub type Row = Vec<Cell>;

pub struct Rule {
    pub line: usize,
    pub is_late: bool,
    /// The directions in which it is used.
    pub directions: Vec<Move>,
    pub left: Vec<Row>,
    pub right: Vec<Row>,
    pub choices: Choices,
    pub commands: Commands,
    joins: bool,
}

/// Groups of rules by their numbers, some in loops.
#[derive(Clone)]
pub enum Part {
    Group(Vec<usize>),
    Loop(Vec<Vec<usize>>),
}

pub struct Rules {
    pub rules: Vec<Rule>,
    pub parts: Vec<Part>,
}

struct Reader<'n> {
    names: &'n Names,
    rules: Rules,
    /// The line of the loop that is open.
    open_loop: Option<usize>,
    /// Whether a rule can be joined to the one before.
    can_join: bool,
}

/// Reads RULES.
pub fn read_rules(lines: &[Line], names: &Names) -> Result<Rules, Fault> {
    let rules = Rules { rules: Vec::new(), parts: Vec::new() };
    let mut reader = Reader { names, rules, open_loop: None, can_join: false };
    for line in lines {
        let tokens: Vec<String> = tokens(&line.text).into_iter().map(folded).collect();
        let is_left_out = |word: &String| matches!(word.as_str(), "random" | "randomdir" | "rigid");
        let read: Vec<&str> = tokens.iter().filter(|word| !is_left_out(word)).map(String::as_str).collect();
        let result = match read[..] {
            [] if tokens.is_empty() => Ok(()),
            ["startloop"] => reader.start_loop(line.number),
            ["endloop"] => reader.end_loop(),
            _ => reader.read_rule(line, &read),
        };
        match result {
            Err(said) => return fault(line.number, said),
            Ok(()) if read.len() < tokens.len() => return fault(line.number, "RU13 NotInProfile"),
            Ok(()) if reader.rules.rules.len() > 1024 => return fault(line.number, "RU14 TooMany"),
            Ok(()) => {}
        }
    }
    match reader.open_loop {
        Some(line) => fault(line, "RU11 Loop"),
        None => Ok(reader.rules),
    }
}

impl Reader<'_> {
    fn start_loop(&mut self, line: usize) -> Result<(), &'static str> {
        if self.open_loop.is_some() {
            return Err("RU11 Loop");
        }
        self.open_loop = Some(line);
        self.can_join = false;
        self.rules.parts.push(Part::Loop(Vec::new()));
        Ok(())
    }

    fn end_loop(&mut self) -> Result<(), &'static str> {
        self.can_join = false;
        self.open_loop.take().map(|_| ()).ok_or("RU11 Loop")
    }

    fn read_rule(&mut self, line: &Line, tokens: &[&str]) -> Result<(), &'static str> {
        let rule = Sides::read(tokens, self.names)?.rule(line, self.names)?;
        if rule.joins && !self.can_join {
            return Err("RU9 PlusAlone");
        }
        if rule.joins && self.rules.rules.last().is_some_and(|before| before.is_late != rule.is_late) {
            return Err("RU10 PlusLate");
        }
        check_ellipses(&rule)?;
        self.add(rule);
        Ok(())
    }

    fn add(&mut self, rule: Rule) {
        let number = self.rules.rules.len();
        match (self.rules.parts.last_mut(), self.open_loop) {
            (Some(Part::Loop(groups)), Some(_)) => match groups.last_mut() {
                Some(group) if rule.joins => group.push(number),
                _ => groups.push(vec![number]),
            },
            (Some(Part::Group(group)), _) if rule.joins => group.push(number),
            _ => self.rules.parts.push(Part::Group(vec![number])),
        }
        self.can_join = true;
        self.rules.rules.push(rule);
    }
}

/// A side of a rule: the words of the cells of its rows, and those outside of brackets with the number of rows before.
#[derive(Default)]
struct Side<'t> {
    rows: Vec<Vec<Vec<&'t str>>>,
    outside: Vec<(usize, &'t str)>,
}

impl<'t> Side<'t> {
    fn read(tokens: &[&'t str]) -> Result<Side<'t>, &'static str> {
        let mut side = Side::default();
        // The row whose bracket is open.
        let mut open: Option<Vec<Vec<&str>>> = None;
        for &token in tokens {
            match (token, &mut open) {
                ("[", None) => open = Some(vec![Vec::new()]),
                ("]", Some(_)) => side.rows.extend(open.take()),
                ("|", Some(row)) => row.push(Vec::new()),
                ("[" | "]" | "|", _) => return Err("RU1 BadBracket"),
                (word, Some(row)) => row.last_mut().into_iter().for_each(|cell| cell.push(word)),
                (word, None) => side.outside.push((side.rows.len(), word)),
            }
        }
        if open.is_some() { Err("RU1 BadBracket") } else { Ok(side) }
    }

    fn cells(&self, names: &Names) -> Result<Vec<Row>, &'static str> {
        let row = |row: &Vec<Vec<&str>>| row.iter().map(|words| read_cell(words, names)).collect();
        self.rows.iter().map(row).collect()
    }
}

/// Reads the words of a cell.
fn read_cell(words: &[&str], names: &Names) -> Result<Cell, &'static str> {
    let mut cell = Cell { word_count: words.len(), ..Cell::default() };
    let mut words = words.iter().copied();
    while let Some(first) = words.next() {
        let mut name = first;
        if first == "..." {
            cell.is_ellipsis = true;
            continue;
        }
        let word = Word::read(first);
        if first == "no" || word.is_some() {
            name = words.next().ok_or("RU2 UnknownWord")?;
        }
        if is_key_word(name) {
            return Err("RU2 UnknownWord");
        }
        let thing = names.thing(name).ok_or("RU2 UnknownWord")?;
        cell.items.push(Item { is_barred: first == "no", word, thing });
    }
    Ok(cell)
}

struct Sides<'t> {
    left: Side<'t>,
    right: Side<'t>,
}

impl<'t> Sides<'t> {
    /// Parts a line at its arrow and its brackets.
    fn read(tokens: &[&'t str], names: &Names) -> Result<Sides<'t>, &'static str> {
        let mut sides = tokens.split(|token| *token == "->");
        let (Some(left), Some(right), None) = (sides.next(), sides.next(), sides.next()) else {
            return Err("RU1 BadBracket");
        };
        let (left, right) = (Side::read(left)?, Side::read(right)?);
        let is_name = |word: &str| !is_key_word(word) && names.thing(word).is_some();
        let belongs_inside = |word: &str| matches!(word, "no" | "...") || Word::read(word).is_some() || is_name(word);
        let behind = left.outside.iter().filter(|(rows, _)| *rows > 0).chain(&right.outside);
        if left.rows.is_empty() || behind.clone().any(|(_, word)| belongs_inside(word)) {
            return Err("RU1 BadBracket");
        }
        Ok(Sides { left, right })
    }

    fn rule(&self, line: &Line, names: &Names) -> Result<Rule, &'static str> {
        let (joins, is_late, mut directions) = self.front()?;
        let commands = self.commands(line)?;
        let (left, right) = (self.left.cells(names)?, self.right.cells(names)?);
        let lengths = |rows: &[Row]| rows.iter().map(Vec::len).collect::<Vec<_>>();
        if !right.is_empty() && lengths(&left) != lengths(&right) {
            return Err("RU3 RowsDiffer");
        }
        if right.is_empty() && self.right.outside.is_empty() {
            return Err("RU4 NothingRight");
        }
        let cells = || left.iter().chain(&right).flatten();
        if cells().any(|cell| names_twice(cell, names)) {
            return Err("RU5 NameTwice");
        }
        let mut items = cells().flat_map(|cell| &cell.items);
        if items.any(|item| item.is_barred && matches!(item.thing, Thing::Aggregate(_))) {
            return Err("RU6 NoAggregate");
        }
        let choices = Choices::bind(&left, &right, names).ok_or("RU7 Unbound")?;
        let words: Vec<Word> = cells().flat_map(|cell| &cell.items).filter_map(|item| item.word).collect();
        if is_late && !words.is_empty() {
            return Err("RU8 LateMove");
        }
        if left.iter().all(|row| row.len() == 1) && !words.into_iter().any(Word::turns) {
            directions.truncate(1);
        }
        Ok(Rule { line: line.number, is_late, directions, left, right, choices, commands, joins })
    }

    /// What stands before the rows: a `+`, `late`, and the directions.
    fn front(&self) -> Result<(bool, bool, Vec<Move>), &'static str> {
        let joins = self.left.outside.first() == Some(&(0, "+"));
        let mut is_late = false;
        let mut given = Vec::new();
        for &(rows, word) in self.left.outside.iter().skip(usize::from(joins)) {
            match directions_of(word) {
                _ if rows > 0 => return Err("RU2 UnknownWord"),
                Some(directions) => given.extend(directions),
                None if word == "late" => is_late = true,
                None => return Err("RU2 UnknownWord"),
            }
        }
        let is_used = |direction: &Move| given.is_empty() || given.contains(direction);
        Ok((joins, is_late, DIRECTIONS.into_iter().filter(is_used).collect()))
    }

    fn commands(&self, line: &Line) -> Result<Commands, &'static str> {
        let mut commands = Commands::default();
        for &(rows, word) in &self.right.outside {
            if rows < self.right.rows.len() || !is_command(word) {
                return Err("RU2 UnknownWord");
            }
            match word {
                "cancel" => commands.cancel = true,
                "restart" => commands.restart = true,
                "again" => commands.again = true,
                "checkpoint" => commands.checkpoint = true,
                "win" => commands.win = true,
                "message" => commands.message = line.rest.clone(),
                _ => {}
            }
        }
        Ok(commands)
    }
}

/// Whether a cell names an object or a property twice, `no` aside.
fn names_twice(cell: &Cell, names: &Names) -> bool {
    let mut named = Vec::new();
    for item in cell.items.iter().filter(|item| !item.is_barred) {
        match item.thing {
            Thing::Property(_) => named.push(item.thing),
            thing => named.extend(names.objects(thing).into_iter().map(Thing::Object)),
        }
    }
    (1..named.len()).any(|at| named[..at].contains(&named[at]))
}

fn check_ellipses(rule: &Rule) -> Result<(), &'static str> {
    let is_bad = |row: &Row| {
        let gaps: Vec<usize> = (0..row.len()).filter(|at| row[*at].is_ellipsis).collect();
        gaps.len() > 2
            || gaps.iter().any(|at| *at == 0 || *at + 1 == row.len() || row[*at].word_count > 1)
            || gaps.windows(2).any(|pair| pair[0] + 1 == pair[1])
    };
    let mut pairs = rule.left.iter().flatten().zip(rule.right.iter().flatten());
    let is_alone = pairs.any(|(left, right)| left.is_ellipsis != right.is_ellipsis);
    if is_alone || rule.left.iter().chain(&rule.right).any(is_bad) {
        return Err("RU12 Ellipsis");
    }
    Ok(())
}
