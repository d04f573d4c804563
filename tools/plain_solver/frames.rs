//! Frames: the characters of a board, or of the room that is seen.

use crate::game::Game;
use crate::masks::Mask;
use crate::patterns::{layer_mask, object_mask};
use std::collections::HashMap;

/// What frames are made of.
pub struct Frames<const N: usize> {
    glyphs: Vec<(char, Mask<N>)>,
    /// The objects of each layer, the lowest first.
    layers: Vec<Mask<N>>,
    background: Mask<N>,
    player: Mask<N>,
    /// The columns and rows of a room.
    room: Option<(usize, usize)>,
    /// The left column and the upper row of the room that is seen.
    corner: (usize, usize),
    known: HashMap<Mask<N>, char>,
}

impl<const N: usize> Frames<N> {
    pub fn new(game: &Game) -> Frames<N> {
        let names = &game.names;
        Frames {
            glyphs: names.glyphs.iter().map(|(glyph, thing)| (*glyph, object_mask(&names.objects(*thing)))).collect(),
            layers: (0..names.layer_count).map(|layer| layer_mask(names, layer)).collect(),
            background: layer_mask(names, names.background_layer()),
            player: object_mask(&names.objects(names.player)),
            room: game.options.room,
            corner: (0, 0),
            known: HashMap::new(),
        }
    }

    /// A level begins: the room at the upper left is seen.
    pub fn begin(&mut self) {
        self.corner = (0, 0);
    }

    /// Writes the frame of a board.
    pub fn write(&mut self, objects: &[Mask<N>], width: usize, text: &mut Vec<u8>) {
        let height = objects.len() / width;
        let (columns, rows) = self.room.unwrap_or((width, height));
        let in_columns = (0..width).flat_map(|column| (0..height).map(move |row| (column, row)));
        let mut players = in_columns.filter(|(column, row)| objects[row * width + column].meets(self.player));
        if let (Some(_), Some((column, row))) = (self.room, players.next()) {
            self.corner = (column / columns * columns, row / rows * rows);
        }
        let (left, top) = self.corner;
        for row in top..height.min(top + rows) {
            for cell in &objects[row * width + left..row * width + width.min(left + columns)] {
                text.extend(self.glyph(*cell).encode_utf8(&mut [0; 4]).bytes());
            }
            text.push(b'\n');
        }
        text.push(b'\n');
    }

    fn glyph(&mut self, cell: Mask<N>) -> char {
        if let Some(glyph) = self.known.get(&cell) {
            return *glyph;
        }
        let glyph = self.find(cell);
        self.known.insert(cell, glyph);
        glyph
    }

    fn find(&self, cell: Mask<N>) -> char {
        let top = self.layers.iter().rev().map(|layer| cell.and(*layer)).find(|objects| !objects.is_empty());
        let mut wanted = [Some(cell), Some(cell.without(self.background)), top].into_iter().flatten();
        let found = wanted.find_map(|objects| self.glyphs.iter().find(|(_, shown)| *shown == objects));
        found.map_or('?', |(glyph, _)| *glyph)
    }
}
