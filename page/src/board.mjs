// The board: a table whose cells show glyphs, and tell readers of screens what they are.
import { harmless } from "./harmless.mjs";

// The name under which a browser notes when a board is laid out: tools/check_page measures by it.
const LAID_OUT = "board";
// What a cell is called that no glyph shows.
const UNKNOWN = "several objects";

export class Board {
  #table;
  #frame;
  #names = new Map();
  #players = "";
  #shown = [];

  // `frame` is the element with the table, which is scrolled where the table is too large.
  constructor(table, frame) {
    this.#table = table;
    this.#frame = frame;
  }

  // Knows of a game what its glyphs are called, and which of them show a player.
  begin({ glyphs, player_glyphs: players }) {
    this.#names = new Map(glyphs.map(({ glyph, objects }) => [glyph, harmless(objects.join(", "))]));
    this.#players = new Set(players);
    this.clear();
  }

  clear() {
    this.#shown = [];
    this.#table.replaceChildren();
  }

  // Draws the rows of a frame. Only cells that have changed are drawn anew.
  draw(rows) {
    const cells = rows.map((row) => [...row]);
    if (!this.#hasSizeOf(cells)) this.#lay(cells);
    cells.forEach((row, y) => row.forEach((glyph, x) => {
      if (glyph !== this.#shown[y][x]) this.#show(this.#table.rows[y].cells[x], glyph);
    }));
    this.#shown = cells;
    this.#follow(cells);
  }

  #hasSizeOf(cells) {
    return cells.length === this.#shown.length && cells.every((row, y) => row.length === this.#shown[y].length);
  }

  // Lays out a board of that size, whose cells are empty.
  #lay(cells) {
    this.clear();
    for (const row of cells) {
      const line = this.#table.insertRow();
      line.setAttribute("role", "row");
      for (const _ of row) line.insertCell().setAttribute("role", "cell");
    }
    this.#shown = cells.map((row) => row.map(() => ""));
    this.#frame.style.setProperty("--rows", Math.max(1, cells.length));
    this.#frame.style.setProperty("--columns", Math.max(1, ...cells.map((row) => row.length)));
    this.#frame.scrollTo(0, 0);
    performance.mark(LAID_OUT);
  }

  #show(cell, glyph) {
    cell.textContent = harmless(glyph);
    cell.setAttribute("aria-label", this.#names.get(glyph) ?? UNKNOWN);
  }

  // Scrolls so that the first player is seen, with some cells around.
  #follow(cells) {
    const frame = this.#frame;
    if (frame.scrollWidth <= frame.clientWidth && frame.scrollHeight <= frame.clientHeight) return;
    const y = cells.findIndex((row) => row.some((glyph) => this.#players.has(glyph)));
    if (y < 0) return;
    const cell = this.#table.rows[y].cells[cells[y].findIndex((glyph) => this.#players.has(glyph))].getBoundingClientRect();
    const board = this.#table.getBoundingClientRect();
    const left = placeInSight(frame.scrollLeft, frame.clientWidth, cell.left - board.left, cell.width);
    const top = placeInSight(frame.scrollTop, frame.clientHeight, cell.top - board.top, cell.height);
    frame.scrollTo(left, top);
  }
}

// Where a window of that length has to begin so that a cell is away from its edges by a quarter of it. It moves as little as it can.
function placeInSight(place, length, start, size) {
  const margin = length / 4;
  if (start - margin < place) return start - margin;
  if (start + size + margin > place + length) return start + size + margin - length;
  return place;
}
