// The output of a run, told apart: the title, levels, frames, messages, won levels and the ending.

// How a told line begins. A row of a board never has a blank, as no glyph is one.
const MARKS = [
  ["= ", "title"],
  ["# level ", "level"],
  ["! ", "message"],
  ["* level ", "done"],
  ["* ", "ending"],
];

// Reads the parts of an output from bytes, in whatever pieces they come. A part is { kind, text } or, of a frame, { kind, rows }.
export class OutputReader {
  #decoder = new TextDecoder();
  #line = "";
  #rows = [];

  // The parts that are whole with these bytes.
  feed(bytes) {
    const lines = (this.#line + this.#decoder.decode(bytes, { stream: true })).split("\n");
    this.#line = lines.pop();
    return lines.map((line) => this.#part(line)).filter((part) => part !== null);
  }

  #part(line) {
    for (const [mark, kind] of MARKS) {
      if (line.startsWith(mark)) return { kind, text: line.slice(mark.length) };
    }
    if (line !== "") {
      this.#rows.push(line);
      return null;
    }
    const rows = this.#rows;
    this.#rows = [];
    return { kind: "frame", rows };
  }
}
