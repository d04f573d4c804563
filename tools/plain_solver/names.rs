//! Names: objects, what the legend declares, and the layers.

use crate::text::{Fault, Line, Section, Text, fault, folded, words};
use std::collections::HashMap;

/// What a name stands for. Aggregates and properties go by the number of the legend line that declares them.
#[derive(Clone, Copy, PartialEq, Eq, Hash, Debug)]
pub enum Thing {
    Object(usize),
    Aggregate(usize),
    Property(usize),
}

pub struct Names {
    /// The layer of each object.
    pub layers: Vec<usize>,
    pub layer_count: usize,
    /// The objects of each line of the legend.
    pub members: Vec<Vec<usize>>,
    /// Names of one character that stand for an object or an aggregate, in the order of their declarations.
    pub glyphs: Vec<(char, Thing)>,
    pub background: Thing,
    pub player: Thing,
    things: HashMap<String, Thing>,
}

impl Names {
    /// What a name stands for, in any case of letters.
    pub fn thing(&self, name: &str) -> Option<Thing> {
        self.things.get(&folded(name)).copied()
    }

    /// The objects that a name stands for.
    pub fn objects(&self, thing: Thing) -> Vec<usize> {
        match thing {
            Thing::Object(object) => vec![object],
            Thing::Aggregate(line) | Thing::Property(line) => self.members[line].clone(),
        }
    }

    /// The layer of the members of a property, if they share one.
    pub fn shared_layer(&self, thing: Thing) -> Option<usize> {
        let objects = self.objects(thing);
        let layer = self.layers[objects[0]];
        objects.iter().all(|object| self.layers[*object] == layer).then_some(layer)
    }

    /// The layer of the background.
    pub fn background_layer(&self) -> usize {
        self.layers[self.objects(self.background)[0]]
    }
}

/// What a line of the legend is.
#[derive(Clone, Copy, PartialEq)]
enum Form {
    Synonym,
    Aggregate,
    Property,
}

struct LegendLine<'t> {
    number: usize,
    name: &'t str,
    form: Form,
    named: Vec<String>,
}

/// What declares a name.
#[derive(Clone, Copy)]
enum Declared {
    Object(usize),
    Legend(usize),
}

#[derive(Default)]
struct Reader<'t> {
    /// The line and the names of each object.
    objects: Vec<(usize, Vec<&'t str>)>,
    legend: Vec<LegendLine<'t>>,
    declared: HashMap<String, Declared>,
    layers: Vec<Option<usize>>,
    layer_count: usize,
}

/// Reads OBJECTS, LEGEND and COLLISIONLAYERS.
pub fn read_names(text: &Text) -> Result<Names, Fault> {
    let mut reader = Reader::default();
    reader.read_objects(text.lines(Section::Objects))?;
    for line in text.lines(Section::Legend).iter().filter(|line| !words(&line.text).is_empty()) {
        reader.read_legend_line(line)?;
    }
    let on_circles = reader.on_circles();
    for at in 0..reader.legend.len() {
        reader.check_named(at, on_circles[at])?;
    }
    let members = reader.members();
    for line in text.lines(Section::Layers).iter().filter(|line| !words(&line.text).is_empty()) {
        reader.read_layer(line, &members)?;
    }
    reader.finish(members, text.header(Section::Objects))
}

fn is_sprite_row(line: &Line) -> bool {
    let words = words(&line.text);
    let is_row = |word: &str| word.len() == 5 && word.bytes().all(|byte| byte == b'.' || byte.is_ascii_digit());
    words.len() == 1 && is_row(words[0])
}

impl<'t> Reader<'t> {
    fn declare(&mut self, line: usize, name: &str, declared: Declared) -> Result<(), Fault> {
        match self.declared.insert(folded(name), declared) {
            Some(_) => fault(line, "NA2 Twice"),
            None => Ok(()),
        }
    }

    fn read_objects(&mut self, lines: &'t [Line]) -> Result<(), Fault> {
        let mut at = 0;
        while at < lines.len() {
            let names = words(&lines[at].text);
            if names.is_empty() {
                at += 1;
                continue;
            }
            let number = lines[at].number;
            let below = &lines[at + 1..];
            let rows = below.iter().skip(1).take(5).take_while(|line| is_sprite_row(line)).count();
            let has_colours = below.first().is_some_and(|line| !words(&line.text).is_empty());
            let is_named = names.len() == 1 || (names.len() == 2 && names[1].chars().count() == 1);
            if !is_named || !has_colours || !matches!(rows, 0 | 5) {
                return fault(number, "NA1 BadObject");
            }
            for name in &names {
                self.declare(number, name, Declared::Object(self.objects.len()))?;
            }
            self.objects.push((number, names));
            if self.objects.len() > 512 {
                return fault(number, "NA14 TooMany");
            }
            at += 2 + rows;
        }
        self.layers = vec![None; self.objects.len()];
        Ok(())
    }

    fn read_legend_line(&mut self, line: &'t Line) -> Result<(), Fault> {
        let parts = legend_words(&line.text);
        let has = |word: &str| parts.iter().any(|part| part.eq_ignore_ascii_case(word));
        let has_name = parts.len() > 1 && parts[0] != "=" && parts[1] == "=";
        if has_name && self.declared.contains_key(&folded(parts[0])) {
            return fault(line.number, "NA2 Twice");
        }
        if has("and") && has("or") {
            return fault(line.number, "NA3 MixedAndOr");
        }
        let joins = parts.iter().skip(3).step_by(2);
        let are_joins = joins.clone().all(|part| part.eq_ignore_ascii_case("and") || part.eq_ignore_ascii_case("or"));
        let named = parts.iter().skip(2).step_by(2);
        let is_whole = has_name && parts.len() >= 3 && parts.len() % 2 == 1;
        if !is_whole || !are_joins || named.clone().any(|name| *name == "=") {
            return fault(line.number, "NA16 BadLine");
        }
        let form = match parts.len() {
            3 => Form::Synonym,
            _ if parts[3].eq_ignore_ascii_case("and") => Form::Aggregate,
            _ => Form::Property,
        };
        self.declare(line.number, parts[0], Declared::Legend(self.legend.len()))?;
        let named = named.map(|name| folded(name)).collect();
        self.legend.push(LegendLine { number: line.number, name: parts[0], form, named });
        Ok(())
    }

    /// Whether each line of the legend stands for itself.
    fn on_circles(&self) -> Vec<bool> {
        let left = self.without_what_ends();
        (0..self.legend.len()).map(|line| left[line] && self.leads_to(line, line)).collect()
    }

    /// The lines of the legend that a name leads to.
    fn lines_named(&self, line: usize) -> impl Iterator<Item = usize> {
        self.legend[line].named.iter().filter_map(|name| match self.declared.get(name) {
            Some(Declared::Legend(line)) => Some(*line),
            _ => None,
        })
    }

    /// The lines of the legend in an order in which each stands behind those that it names, circles left out.
    fn in_order(&self) -> Vec<usize> {
        let mut open: Vec<usize> = (0..self.legend.len()).map(|line| self.lines_named(line).count()).collect();
        let mut namers = vec![Vec::new(); self.legend.len()];
        for line in 0..self.legend.len() {
            self.lines_named(line).for_each(|named| namers[named].push(line));
        }
        let mut order: Vec<usize> = (0..self.legend.len()).filter(|line| open[*line] == 0).collect();
        let mut at = 0;
        while at < order.len() {
            for &namer in &namers[order[at]] {
                open[namer] -= 1;
                if open[namer] == 0 {
                    order.push(namer);
                }
            }
            at += 1;
        }
        order
    }

    fn without_what_ends(&self) -> Vec<bool> {
        let mut left = vec![true; self.legend.len()];
        self.in_order().into_iter().for_each(|line| left[line] = false);
        left
    }

    fn leads_to(&self, from: usize, to: usize) -> bool {
        let mut seen = vec![false; self.legend.len()];
        let mut open: Vec<usize> = self.lines_named(from).collect();
        while let Some(line) = open.pop() {
            if line == to {
                return true;
            }
            if !std::mem::replace(&mut seen[line], true) {
                open.extend(self.lines_named(line));
            }
        }
        false
    }

    /// What a name stands for, if its synonyms end.
    fn resolved(&self, name: &str) -> Option<Thing> {
        let mut name = name;
        for _ in 0..=self.legend.len() {
            match *self.declared.get(name)? {
                Declared::Object(object) => return Some(Thing::Object(object)),
                Declared::Legend(line) => match self.legend[line].form {
                    Form::Synonym => name = &self.legend[line].named[0],
                    Form::Aggregate => return Some(Thing::Aggregate(line)),
                    Form::Property => return Some(Thing::Property(line)),
                },
            }
        }
        None
    }

    fn check_named(&self, at: usize, is_on_circle: bool) -> Result<(), Fault> {
        let line = &self.legend[at];
        if line.named.iter().any(|name| !self.declared.contains_key(name)) {
            return fault(line.number, "NA4 UnknownName");
        }
        if is_on_circle {
            return fault(line.number, "NA5 Cycle");
        }
        let mut things = line.named.iter().filter_map(|name| self.resolved(name));
        match line.form {
            Form::Property if things.any(|thing| matches!(thing, Thing::Aggregate(_))) => {
                fault(line.number, "NA6 AggregateInProperty")
            }
            Form::Aggregate if things.any(|thing| matches!(thing, Thing::Property(_))) => {
                fault(line.number, "NA7 PropertyInAggregate")
            }
            _ => Ok(()),
        }
    }

    /// The objects of each line of the legend, each at its first mention.
    fn members(&self) -> Vec<Vec<usize>> {
        let mut members = vec![Vec::new(); self.legend.len()];
        for line in self.in_order() {
            let mut own = Vec::new();
            let mut is_there = vec![false; self.objects.len()];
            for name in &self.legend[line].named {
                let objects = match self.declared[name] {
                    Declared::Object(object) => &[object][..],
                    Declared::Legend(line) => &members[line],
                };
                own.extend(objects.iter().filter(|object| !std::mem::replace(&mut is_there[**object], true)));
            }
            members[line] = own;
        }
        members
    }

    fn read_layer(&mut self, line: &Line, members: &[Vec<usize>]) -> Result<(), Fault> {
        let text = line.text.replace(',', " ");
        let names = words(&text);
        let mut things = Vec::new();
        for name in &names {
            match self.resolved(&folded(name)) {
                Some(thing) => things.push(thing),
                None => return fault(line.number, "NA4 UnknownName"),
            }
        }
        if things.iter().any(|thing| matches!(thing, Thing::Aggregate(_))) {
            return fault(line.number, "NA8 AggregateInLayer");
        }
        if self.layer_count == 128 {
            return fault(line.number, "NA14 TooMany");
        }
        if names.is_empty() {
            return fault(line.number, "NA16 BadLine");
        }
        for thing in things {
            match thing {
                Thing::Object(object) => self.layers[object] = Some(self.layer_count),
                Thing::Aggregate(line) | Thing::Property(line) => {
                    members[line].iter().for_each(|object| self.layers[*object] = Some(self.layer_count));
                }
            }
        }
        self.layer_count += 1;
        Ok(())
    }

    /// The line that declares a name.
    fn line_of(&self, name: &str) -> usize {
        match self.declared[name] {
            Declared::Object(object) => self.objects[object].0,
            Declared::Legend(line) => self.legend[line].number,
        }
    }

    fn finish(self, members: Vec<Vec<usize>>, header: usize) -> Result<Names, Fault> {
        if let Some(object) = self.layers.iter().position(Option::is_none) {
            return fault(self.objects[object].0, "NA9 NoLayer");
        }
        let Some(background) = self.resolved("background") else {
            return fault(header, "NA10 NoBackground");
        };
        let Some(player) = self.resolved("player") else {
            return fault(header, "NA11 NoPlayer");
        };
        let names = Names {
            layers: self.layers.iter().flatten().copied().collect(),
            layer_count: self.layer_count,
            members,
            glyphs: self.glyphs(),
            background,
            player,
            things: self.declared.keys().filter_map(|name| Some((name.clone(), self.resolved(name)?))).collect(),
        };
        if matches!(background, Thing::Aggregate(_)) || names.shared_layer(background).is_none() {
            return fault(self.line_of("background"), "NA12 BadBackground");
        }
        if matches!(player, Thing::Aggregate(_)) {
            return fault(self.line_of("player"), "NA13 BadPlayer");
        }
        for (at, line) in self.legend.iter().enumerate().filter(|(_, line)| line.form == Form::Aggregate) {
            let mut layers: Vec<usize> = names.members[at].iter().map(|object| names.layers[*object]).collect();
            layers.sort();
            if layers.windows(2).any(|pair| pair[0] == pair[1]) {
                return fault(line.number, "NA15 SameLayerAggregate");
            }
        }
        Ok(names)
    }

    fn glyphs(&self) -> Vec<(char, Thing)> {
        let of_objects = self.objects.iter().flat_map(|(_, names)| names.iter().copied());
        let all = of_objects.chain(self.legend.iter().map(|line| line.name));
        all.filter(|name| name.chars().count() == 1)
            .filter_map(|name| Some((name.chars().next()?, self.resolved(&folded(name))?)))
            .filter(|(_, thing)| !matches!(thing, Thing::Property(_)))
            .collect()
    }
}

/// The words of a line of LEGEND, which `=` parts as well.
fn legend_words(text: &str) -> Vec<&str> {
    let mut parts = Vec::new();
    for word in words(text) {
        for part in word.split_inclusive('=') {
            match part.strip_suffix('=') {
                Some("") => parts.push("="),
                Some(before) => parts.extend([before, &part[before.len()..]]),
                None => parts.push(part),
            }
        }
    }
    parts
}
