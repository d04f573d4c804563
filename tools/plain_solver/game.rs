//! A whole game: its prelude, names, rules, levels and win conditions.

use crate::choices::{Reading, readings};
use crate::names::{Names, Thing, read_names};
use crate::rule_lines::{Rules, read_rules};
use crate::text::{Fault, Line, Section, Text, fault, is_blank, read_text, room_size, words};

#[derive(Default)]
pub struct Options {
    pub title: String,
    pub has_no_action: bool,
    pub has_no_undo: bool,
    pub has_no_restart: bool,
    pub wants_movement: bool,
    pub runs_at_start: bool,
    /// The columns and rows of a room.
    pub room: Option<(usize, usize)>,
}

/// A level as it is loaded: the objects of each cell, row by row.
pub struct Level {
    pub width: usize,
    pub height: usize,
    pub cells: Vec<Vec<usize>>,
}

pub enum Entry {
    Message(String),
    Level(Level),
}

/// What a win condition asks of the cells with one thing, and on another one.
#[derive(Clone, Copy, PartialEq)]
pub enum Quantity {
    No,
    Some,
    All,
}

pub struct Win {
    pub quantity: Quantity,
    pub what: Thing,
    pub on: Option<Thing>,
}

pub struct Game {
    pub options: Options,
    pub names: Names,
    pub rules: Rules,
    /// The possible readings of each rule.
    pub readings: Vec<Vec<Reading>>,
    pub entries: Vec<Entry>,
    pub wins: Vec<Win>,
}

/// Reads a game.
pub fn read_game(bytes: &[u8]) -> Result<Game, Fault> {
    let text = read_text(bytes)?;
    let names = read_names(&text)?;
    let rules = read_rules(text.lines(Section::Rules), &names)?;
    let entries = read_levels(&text, &names)?;
    let wins = read_wins(text.lines(Section::Wins), &names)?;
    let readings = readings(&rules.rules, &names)?;
    let options = read_options(text.lines(Section::Prelude));
    Ok(Game { options, names, rules, readings, entries, wins })
}

fn read_options(lines: &[Line]) -> Options {
    let mut options = Options::default();
    let mut title = None;
    for line in lines {
        let words = words(&line.text);
        let Some(first) = words.first() else {
            continue;
        };
        match first.to_ascii_lowercase().as_str() {
            "title" => title = title.or(line.rest.clone()),
            "noaction" => options.has_no_action = true,
            "noundo" => options.has_no_undo = true,
            "norestart" => options.has_no_restart = true,
            "require_player_movement" => options.wants_movement = true,
            "run_rules_on_level_start" => options.runs_at_start = true,
            "flickscreen" => options.room = options.room.or(words.get(1).and_then(|word| room_size(word))),
            _ => {}
        }
    }
    options.title = title.unwrap_or_default();
    options
}

fn read_wins(lines: &[Line], names: &Names) -> Result<Vec<Win>, Fault> {
    let mut wins = Vec::new();
    for line in lines {
        let words = words(&line.text);
        let (first, what, on) = match words[..] {
            [] => continue,
            [first, what] => (first, what, None),
            [first, what, join, on] if join.eq_ignore_ascii_case("on") => (first, what, Some(on)),
            _ => return fault(line.number, "WN1 BadWin"),
        };
        let quantity = match first.to_ascii_lowercase().as_str() {
            "no" => Quantity::No,
            "some" | "any" => Quantity::Some,
            "all" => Quantity::All,
            _ => return fault(line.number, "WN1 BadWin"),
        };
        let known = |name: &str| names.thing(name).ok_or(Fault { line: line.number, said: "WN2 UnknownName" });
        wins.push(Win { quantity, what: known(what)?, on: on.map(known).transpose()? });
    }
    Ok(wins)
}

/// The rows of a level, while they are read.
struct Rows {
    width: usize,
    rows: Vec<Vec<Thing>>,
}

fn read_levels(text: &Text, names: &Names) -> Result<Vec<Entry>, Fault> {
    let mut entries = Vec::new();
    let mut open: Option<Rows> = None;
    for line in text.lines(Section::Levels) {
        let row = line.text.trim_matches(is_blank);
        if line.rest.is_some() || row.is_empty() {
            entries.extend(open.take().map(|rows| Entry::Level(loaded(&rows, names))));
        }
        let begins = line.rest.is_some() || (open.is_none() && !row.is_empty());
        if let Some(message) = &line.rest {
            entries.push(Entry::Message(message.clone()));
        } else if !row.is_empty() {
            let rows = open.get_or_insert_with(|| Rows { width: row.chars().count(), rows: Vec::new() });
            read_row(line.number, row, rows, names)?;
        }
        if begins && entries.len() + usize::from(open.is_some()) > 999 {
            return fault(line.number, "LV5 TooMany");
        }
    }
    entries.extend(open.take().map(|rows| Entry::Level(loaded(&rows, names))));
    if !entries.iter().any(|entry| matches!(entry, Entry::Level(_))) {
        return fault(text.header(Section::Levels), "LV4 NoLevel");
    }
    Ok(entries)
}

fn read_row(number: usize, row: &str, rows: &mut Rows, names: &Names) -> Result<(), Fault> {
    let mut things = Vec::new();
    for glyph in row.chars().take(rows.width) {
        things.push(names.thing(&glyph.to_string()).ok_or(Fault { line: number, said: "LV1 UnknownGlyph" })?);
    }
    if things.iter().any(|thing| matches!(thing, Thing::Property(_))) {
        return fault(number, "LV2 PropertyGlyph");
    }
    if rows.width > 256 || rows.rows.len() == 256 {
        return fault(number, "LV3 TooLarge");
    }
    things.resize(rows.width, things[things.len() - 1]);
    rows.rows.push(things);
    Ok(())
}

/// The level of these rows: each cell without a background gets one.
fn loaded(rows: &Rows, names: &Names) -> Level {
    let (width, height) = (rows.width, rows.rows.len());
    let mut cells: Vec<Vec<usize>> = rows.rows.iter().flatten().map(|thing| names.objects(*thing)).collect();
    let layer = names.background_layer();
    let is_background = |object: &usize| names.layers[*object] == layer;
    let in_columns = (0..width).flat_map(|column| (0..height).map(move |row| row * width + column));
    let first = in_columns.flat_map(|cell| cells[cell].iter().copied()).find(is_background);
    let background = first.unwrap_or(names.objects(names.background)[0]);
    for cell in &mut cells {
        if !cell.iter().any(is_background) {
            cell.push(background);
        }
    }
    Level { width, height, cells }
}
