// A run of the program ps_play, as the engine has it. It is parked where it asks for a key and there is none.

// What the engine answers of its state: that it runs, that it is being parked, that it goes on where it was parked.
const PARKING = 1;
const GOING_ON = 2;

const NO_SUCH_ARGUMENT = -1n;
const TOO_LONG = -2n;
const FAILED = -1;

// Files have numbers from 3 on, behind those of the keys, the output and the errors.
const FIRST_FILE = 3;
export const OUTPUT = 1;

const encoder = new TextEncoder();
const decoder = new TextDecoder();

export class Program {
  #words;
  #files;
  #written;
  #opened = [];
  #keys = new Uint8Array();
  #keysHaveEnded = false;
  #engine;
  #place;

  // Whether the program has ended, and with which status.
  isOver = false;
  status = null;

  // `words` are its command line, `files` its files by their names, as bytes, and `written(file, bytes)` is told of what it writes.
  constructor(module, words, files, written) {
    this.#words = words.map((word) => encoder.encode(word));
    this.#files = files;
    this.#written = written;
    this.#engine = new WebAssembly.Instance(module, { host: this.#host() }).exports;
    this.#place = this.#engine.parking_place();
  }

  // Runs it up to where it asks for a key, or to its end. Throws where the engine fails.
  start() {
    this.#run();
  }

  // Hands it keys, as bytes, and runs it until it asks for more. It has asked for them, so none are left of those before.
  type(keys) {
    if (this.isOver) return;
    this.#keys = keys;
    this.#goOn();
  }

  // Tells it that the keys have ended, and runs it to its end.
  endKeys() {
    if (this.isOver) return;
    this.#keysHaveEnded = true;
    this.#goOn();
  }

  #goOn() {
    this.#engine.asyncify_start_rewind(Number(this.#place));
    this.#run();
  }

  #run() {
    this.status = this.#engine.start();
    if (this.#engine.asyncify_get_state() === PARKING) this.#engine.asyncify_stop_unwind();
    else this.isOver = true;
  }

  // The bytes at an address of the engine's memory, which moves as it grows.
  #bytes(address, length) {
    return new Uint8Array(this.#engine.memory.buffer, Number(BigInt.asUintN(32, address)), Number(length));
  }

  // What the engine asks of the JavaScript around it.
  #host() {
    return {
      read_keys: (to, most) => this.#readKeys(to, most),
      read_file: (file, to, most) => this.#readFile(file, this.#bytes(to, most)),
      write: (file, from, length) => {
        this.#written(file, this.#bytes(from, length).slice());
        return length;
      },
      open: (path, length) => this.#open(decoder.decode(this.#bytes(path, length))),
      close: () => 0,
      argument: (number, to, most) => this.#argument(number, this.#bytes(to, most)),
    };
  }

  #readKeys(to, most) {
    if (this.#engine.asyncify_get_state() === GOING_ON) this.#engine.asyncify_stop_rewind();
    if (this.#keys.length === 0 && !this.#keysHaveEnded) {
      this.#engine.asyncify_start_unwind(Number(this.#place));
      return 0n;
    }
    const taken = this.#keys.subarray(0, Number(most));
    this.#keys = this.#keys.subarray(taken.length);
    this.#bytes(to, most).set(taken);
    return BigInt(taken.length);
  }

  #open(path) {
    const bytes = this.#files.get(path);
    return bytes === undefined ? FAILED : this.#opened.push({ bytes, place: 0 }) - 1 + FIRST_FILE;
  }

  #readFile(number, to) {
    const file = this.#opened[number - FIRST_FILE];
    if (file === undefined) return BigInt(FAILED);
    const taken = file.bytes.subarray(file.place, file.place + to.length);
    to.set(taken);
    file.place += taken.length;
    return BigInt(taken.length);
  }

  #argument(number, to) {
    const word = this.#words[Number(number)];
    if (word === undefined) return NO_SUCH_ARGUMENT;
    to.set(word.subarray(0, to.length));
    return word.length > to.length ? TOO_LONG : BigInt(word.length);
  }
}

// Runs the program to its end on these keys, one after the other as they are typed. Its status, and all that it wrote.
export function runToEnd(module, words, files, keys = new Uint8Array()) {
  const pieces = { 1: [], 2: [] };
  const program = new Program(module, words, files, (file, bytes) => pieces[file].push(bytes));
  program.start();
  for (const key of keys) program.type(Uint8Array.of(key));
  program.endKeys();
  return { status: program.status, output: joined(pieces[1]), errors: joined(pieces[2]) };
}

// These pieces as one.
function joined(pieces) {
  const whole = new Uint8Array(pieces.reduce((length, piece) => length + piece.length, 0));
  let place = 0;
  for (const piece of pieces) {
    whole.set(piece, place);
    place += piece.length;
  }
  return whole;
}
