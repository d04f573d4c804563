// The page's side of its worker: requests, each with its answer. Whoever has enough of a worker ends it, whatever it is doing.

// The worker was ended before it answered.
export class Ended extends Error {}

class Helper {
  #worker;
  #waiting = new Map();
  #last = 0;

  constructor(address) {
    this.#worker = new Worker(address);
    this.#worker.onmessage = ({ data }) => this.#take(data);
    this.#worker.onerror = (event) => this.#refuse(new Error(event.message ?? "the worker failed"));
    this.#worker.onmessageerror = () => this.#refuse(new Error("the worker's answer can't be read"));
  }

  ask(name, request = {}) {
    const number = ++this.#last;
    this.#worker.postMessage({ number, name, ...request });
    return new Promise((resolve, reject) => this.#waiting.set(number, { resolve, reject }));
  }

  // Ends the worker. Nothing that it was asked will be answered.
  end() {
    this.#worker.terminate();
    this.#refuse(new Ended("ended"));
  }

  #take({ number, answer, failure }) {
    const asked = this.#waiting.get(number);
    this.#waiting.delete(number);
    if (failure === undefined) asked?.resolve(answer);
    else asked?.reject(new Error(failure));
  }

  #refuse(error) {
    for (const { reject } of this.#waiting.values()) reject(error);
    this.#waiting.clear();
  }
}

// Makes workers that have the engine. It is unpacked and compiled once.
export class Helpers {
  #address;
  #packed;
  #length;
  #compiled = null;

  // `source` is the script of a worker, `packed` the engine as a file of LZMA, and `length` how many bytes it has.
  constructor(source, packed, length) {
    this.#address = URL.createObjectURL(new Blob([source], { type: "text/javascript" }));
    this.#packed = packed;
    this.#length = length;
  }

  // A worker, whose first request may be made at once.
  begin() {
    const helper = new Helper(this.#address);
    const loaded = this.#compiled === null
      ? helper.ask("load", { packed: this.#packed, length: this.#length }).then(({ compiled }) => { this.#compiled = compiled; })
      : helper.ask("use", { compiled: this.#compiled });
    loaded.catch(() => {});
    return helper;
  }
}
