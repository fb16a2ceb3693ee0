// What is live after the lines that have run, as the module answers when it is asked.

import { Refusal } from "./desk.js";

// The rows of a reply behind its first line, each as its words.
function rowsOf(reply) {
  return reply.split("\n").slice(1).map((row) => row.trim().split(" "));
}

export class Live {
  #session;
  #answers = new Map();
  #lines;
  #position = -1;

  constructor(session) {
    this.#session = session;
  }

  // The rows of the answer to a question that is asked behind the lines that have run.
  #rows(question) {
    const { lines, position } = this.#session.state;
    if (lines !== this.#lines || position !== this.#position) this.#answers.clear();
    this.#lines = lines;
    this.#position = position;
    if (!this.#answers.has(question)) this.#answers.set(question, this.#asked(question));
    return this.#answers.get(question);
  }

  // The rows of an answer, none where the module can't be asked.
  #asked(question) {
    try {
      return rowsOf(this.#session.asked(question));
    } catch (fault) {
      if (!(fault instanceof Refusal)) throw fault;
      return [];
    }
  }

  // The names of live tasks.
  get tasks() {
    return this.#rows("areas").filter(([kind]) => kind === "slot").map(([, name]) => name);
  }

  // The numbers of areas, each with its pages.
  get areas() {
    return this.#rows("areas").filter(([kind]) => kind === "area").map(([, number, pages]) => ({ number, pages }));
  }

  // The flex blocks of a task.
  blocks(task) {
    return this.#rows(`blocks ${task}`).map(([anchor, address, size]) => ({ anchor, address, size }));
  }

  // The used blocks of a task's C heap.
  used(task) {
    const used = this.#rows(`heap ${task}`).filter(([kind]) => kind === "used");
    return used.map(([, address, size]) => ({ address, size }));
  }

  // The transfers of a task that go one way.
  transfers(task, way) {
    return this.#rows(`status ${task}`).filter(([side, state]) => side === way && state !== "idle")
      .map(([, state, id]) => ({ id, state }));
  }

  // What a pattern finds in lines that have run and were granted, each beside the words of its reply.
  #granted(pattern) {
    const { state: { lines, position }, replies } = this.#session;
    return lines.slice(0, position).map((line, at) => [pattern.exec(line), (replies[at] ?? "").split(/[ \n]+/)])
      .filter(([found, [outcome]]) => found && outcome === "ok");
  }

  // The live tasks with their handles, and whether each has code of its own, by the lines that started them.
  get started() {
    const found = new Map(this.#granted(/^ *task +(\w+) +\d+(?: +(\w+))? *$/).map(([[, name, manner], [, handle]]) =>
      [name, { name, handle, isRaw: manner === "raw" }]));
    return this.tasks.map((name) => found.get(name)).filter(Boolean);
  }

  // The messages that a task with code of its own has taken, the last one first.
  taken(task) {
    return this.#granted(/^ *poll +(\w+) *$/).filter(([[, name], words]) => name === task && words[5] === "taken")
      .map(([, [, , action, ref, , , , , data = ""]]) => ({ action, ref, data })).reverse();
  }

  // The addresses in the module area that replies of the script gave, and that no `rma free` took back.
  get inModuleArea() {
    const found = new Set();
    for (const [[, way, address], [, given]] of this.#granted(/^ *rma +(\w+) +(\S+)/)) {
      if (way !== "claim") found.delete(address.toUpperCase());
      if (given) found.add(given);
    }
    return [...found];
  }
}
