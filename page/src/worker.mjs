// The page's worker. It alone runs the program, so that the page stays awake whatever a game does. It answers each request by one
// message, and a page that has had enough of it ends it.
import { Answer } from "./answer.mjs";
import { textOf } from "./bytes.mjs";
import { unpacked } from "./lzma.mjs";
import { OutputReader } from "./output.mjs";
import { OUTPUT, Program, runToEnd } from "./program.mjs";

// The name of the text among the files of the program.
const GAME = "game";
// Frames of one answer that are shown one after the other, and of a replay.
const MOST_FRAMES = 60;
const MOST_FRAMES_OF_REPLAY = 1;

let engine = null;
let whyNoEngine = "";
let game = null;

// A game that is being played.
class Played {
  #reader = new OutputReader();
  #answer = new Answer(MOST_FRAMES);
  #said = "";
  #program;

  constructor(text, words) {
    this.#program = new Program(engine, ["ps_play", GAME, ...words], filesOf(text), (file, bytes) => this.#take(file, bytes));
    this.#program.start();
  }

  #take(file, bytes) {
    if (file !== OUTPUT) this.#said += textOf(bytes);
    else for (const part of this.#reader.feed(bytes)) this.#answer.add(part);
  }

  type(keys, isReplay) {
    this.#answer = new Answer(isReplay ? MOST_FRAMES_OF_REPLAY : MOST_FRAMES);
    this.#program.type(keys);
  }

  // What the program wrote since it was asked last, whether it has ended, and what it said on standard error.
  told() {
    return { parts: this.#answer.take(), isOver: this.#program.isOver, said: this.#said };
  }
}

function filesOf(text) {
  return new Map([[GAME, text]]);
}

// What the program says of a text without playing it.
function run(text, ...words) {
  const { status, output, errors } = runToEnd(engine, ["ps_play", ...words], filesOf(text));
  return { status, said: textOf(output) + textOf(errors) };
}

// Whether the engine can begin at a level.
function beginsAtLevels() {
  return /^ +--level /m.test(run(new Uint8Array(), "--help").said);
}

const requests = {
  load({ packed, length }) {
    engine = new WebAssembly.Module(unpacked(packed, length));
    return { compiled: engine };
  },
  use({ compiled }) {
    engine = compiled;
    return {};
  },
  // What a check says of a text: its fault, or what a page has to know of the game.
  check({ text }) {
    const { status, said } = run(text, "--check", "--why", GAME);
    if (status !== 0) return { fault: said };
    const described = run(text, "--describe", GAME);
    if (described.status !== 0) return { fault: described.said };
    return { facts: JSON.parse(described.said), beginsAtLevels: beginsAtLevels() };
  },
  begin({ text, level }) {
    game = new Played(text, level === 1 ? [] : ["--level", String(level)]);
    return game.told();
  },
  type({ keys, isReplay }) {
    game.type(keys, isReplay);
    return game.told();
  },
};

// Answers the request that a message brings. Where there is no engine each answer says why.
onmessage = ({ data: { number, name, ...request } }) => {
  try {
    if (engine === null && whyNoEngine) throw new Error(whyNoEngine);
    postMessage({ number, answer: requests[name](request) });
  } catch (error) {
    if (engine === null) whyNoEngine ||= `it can't be loaded: ${error.message}`;
    postMessage({ number, failure: error.message });
  }
};
