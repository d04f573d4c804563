//! A board: the objects and the moves of each cell, and what stands on each of its lines.

use crate::game::Level;
use crate::masks::Mask;

/// Cells are numbered row by row.
pub struct Board<const N: usize, const M: usize> {
    pub width: usize,
    pub height: usize,
    pub cells: Vec<Content<N, M>>,
    /// What stands on each row, on each column and on all. It may be said to be more than it is, never less.
    pub rows: Vec<Content<N, M>>,
    pub columns: Vec<Content<N, M>>,
    pub all: Content<N, M>,
    /// The cells whose objects have been changed, some of them more than once.
    pub touched: Vec<u32>,
    /// The cells that have got moves, some of them more than once.
    moving: Vec<u32>,
}

/// What stands in a cell, on a line, or on a whole board.
#[derive(Clone, Copy)]
pub struct Content<const N: usize, const M: usize> {
    pub objects: Mask<N>,
    pub moves: Mask<M>,
}

impl<const N: usize, const M: usize> Content<N, M> {
    pub const EMPTY: Content<N, M> = Content { objects: Mask::EMPTY, moves: Mask::EMPTY };

    #[inline(always)]
    pub fn add(&mut self, more: Content<N, M>) {
        self.objects = self.objects.or(more.objects);
        self.moves = self.moves.or(more.moves);
    }

    #[inline(always)]
    pub fn has(&self, wanted: &Content<N, M>) -> bool {
        self.objects.has(wanted.objects) && self.moves.has(wanted.moves)
    }
}

/// Adds a cell to a list that has at most four times as many as the board.
#[inline(always)]
fn note(list: &mut Vec<u32>, cell: usize, cells: usize) {
    if list.len() > 4 * cells {
        shorten(list);
    }
    list.push(cell as u32);
}

/// Takes out of a list what stands in it before.
#[cold]
#[inline(never)]
pub fn shorten(list: &mut Vec<u32>) {
    list.sort_unstable();
    list.dedup();
}

impl<const N: usize, const M: usize> Board<N, M> {
    pub fn of_level(level: &Level) -> Board<N, M> {
        let content = |objects: &Vec<usize>| {
            let mut content = Content::EMPTY;
            objects.iter().for_each(|object| content.objects.insert(*object));
            content
        };
        let mut board = Board {
            width: level.width,
            height: level.height,
            cells: level.cells.iter().map(content).collect(),
            rows: vec![Content::EMPTY; level.height],
            columns: vec![Content::EMPTY; level.width],
            all: Content::EMPTY,
            touched: Vec::new(),
            moving: Vec::new(),
        };
        board.look();
        board
    }

    /// Looks what stands on each line.
    pub fn look(&mut self) {
        self.columns.fill(Content::EMPTY);
        self.all = Content::EMPTY;
        for (row, cells) in self.rows.iter_mut().zip(self.cells.chunks_exact(self.width)) {
            *row = Content::EMPTY;
            for (column, cell) in self.columns.iter_mut().zip(cells) {
                column.add(*cell);
                row.add(*cell);
            }
            self.all.add(*row);
        }
    }

    /// The objects of each cell.
    pub fn objects(&self) -> Vec<Mask<N>> {
        self.cells.iter().map(|cell| cell.objects).collect()
    }

    /// Changes a cell.
    #[inline(always)]
    pub fn set(&mut self, cell: usize, content: Content<N, M>) {
        let before = &mut self.cells[cell];
        let (gets_moves, is_touched) =
            (before.moves.is_empty() && !content.moves.is_empty(), before.objects != content.objects);
        *before = content;
        if gets_moves {
            note(&mut self.moving, cell, self.cells.len());
        }
        if is_touched {
            note(&mut self.touched, cell, self.cells.len());
        }
        self.rows[cell / self.width].add(content);
        self.columns[cell % self.width].add(content);
        self.all.add(content);
    }

    /// Has these objects. Nothing moves.
    pub fn show(&mut self, objects: &[Mask<N>]) {
        for (cell, own) in objects.iter().enumerate() {
            if self.cells[cell].objects != *own {
                note(&mut self.touched, cell, objects.len());
                self.cells[cell].objects = *own;
            }
        }
        self.look();
    }

    /// Stands on the same lines as another board does.
    pub fn copy_lines(&mut self, other: &Board<N, M>) {
        self.rows.copy_from_slice(&other.rows);
        self.columns.copy_from_slice(&other.columns);
        self.all = other.all;
    }

    /// Has what another board has in a cell and on its lines.
    #[inline(always)]
    pub fn copy_cell(&mut self, other: &Board<N, M>, cell: usize) {
        let (row, column) = (cell / self.width, cell % self.width);
        self.cells[cell] = other.cells[cell];
        self.rows[row] = other.rows[row];
        self.columns[column] = other.columns[column];
    }

    /// Puts the cells that have got moves in their order down the columns.
    #[inline(never)]
    fn sort_moving(&mut self) {
        let (width, height) = (self.width as u32, self.height as u32);
        self.moving.sort_unstable_by_key(|cell| cell % width * height + cell / width);
    }

    /// Ends all moves, and adds the cells and the moves that they had, down the columns.
    #[inline(always)]
    pub fn end_moves(&mut self, ended: &mut Vec<(usize, Mask<M>)>) {
        if self.moving.len() > 1 {
            self.sort_moving();
        }
        for cell in self.moving.drain(..).map(|cell| cell as usize) {
            let moves = std::mem::replace(&mut self.cells[cell].moves, Mask::EMPTY);
            if !moves.is_empty() {
                ended.push((cell, moves));
            }
            self.rows[cell / self.width].moves = Mask::EMPTY;
            self.columns[cell % self.width].moves = Mask::EMPTY;
        }
        self.all.moves = Mask::EMPTY;
    }
}
