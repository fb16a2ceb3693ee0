// Tests of what a call of the module gets, beside the forms of calls in web/README.md.

import { Desk } from "./desk.js";
import { runAll, same, told } from "./parts.js";

// What each call takes, as web/README.md has it.
const CALL_FORMS = {
  vf_run: ["pages", "pool", "numbers", "script", "files", "text", "needed"],
  vf_map: ["pages", "pool", "numbers", "script", "files", "marked", "text", "needed"],
  vf_draw: ["pages", "pool", "numbers", "script", "name", "files", "marked", "text", "needed"],
  vf_check: ["kind", "image", "text", "needed"],
};
// What is no address.
const PLAIN_NUMBERS = ["pages", "marked", "kind"];
// The first address that isn't the module's own.
const OWN_END = 5003;
// The bytes of one of what a length counts, where that isn't a byte.
const BYTES_OF_ONE = { numbers: 2 };
// What a call is given. None of these have the same length.
const GIVEN = {
  pages: 9, marked: 1, kind: 1, script: Uint8Array.of(1, 2, 3), name: Uint8Array.of(4, 5), files: Uint8Array.of(),
  image: Uint8Array.of(7, 8, 9, 10),
};

// The words of a call by the names of its form: a number, or a place and a length.
function named(form, words) {
  const rest = [...words];
  return Object.fromEntries(form.map((name) => {
    if (PLAIN_NUMBERS.includes(name)) return [name, rest.shift()];
    return [name, { place: Number(rest.shift()), length: name === "needed" ? 8 : Number(rest.shift()) }];
  }));
}

// A desk whose module has all calls; each notes its words and the memory as it is then, and gives a status.
function noting(status, initial = 16n, maximum = 99n, ownEnd = OWN_END) {
  const memory = new WebAssembly.Memory({ address: "i64", initial, maximum });
  new Uint8Array(memory.buffer).fill(0xff);
  const notes = {};
  const exports = { memory, __heap_base: { value: BigInt(ownEnd) } };
  for (const [call, form] of Object.entries(CALL_FORMS)) {
    const noted = (...words) => {
      Object.assign(notes, { words: named(form, words), bytes: new Uint8Array(memory.buffer.slice(0)) });
      return status;
    };
    const length = form.reduce((sum, name) => sum + (PLAIN_NUMBERS.includes(name) || name === "needed" ? 1 : 2), 0);
    exports[call] = Object.defineProperty(noted, "length", { value: length });
  }
  return { desk: new Desk(() => exports), exports, notes };
}

// The first and the last place of each buffer of a call, in order.
function rangesOf(words) {
  const buffers = Object.entries(words).filter(([name]) => !PLAIN_NUMBERS.includes(name));
  const ranges = buffers.map(([name, { place, length }]) => [place, place + length * (BYTES_OF_ONE[name] ?? 1)]);
  return ranges.sort(([left], [right]) => left - right);
}

const DESK_TESTS = {
  "a call gets its numbers, and buffers with as much as they hold"() {
    for (const [call, form] of Object.entries(CALL_FORMS)) {
      const { desk, notes } = noting(0);
      desk.text(call, GIVEN);
      const { words, bytes } = notes;
      const plain = form.filter((name) => PLAIN_NUMBERS.includes(name));
      same(plain.map((name) => words[name]), plain.map((name) => GIVEN[name]));
      if (form.includes("pool")) same([words.pool.length, words.numbers.length], [9 * 4096, 9 * 71]);
      for (const name of form.filter((it) => GIVEN[it] instanceof Uint8Array)) {
        const { place, length } = words[name];
        same([...bytes.subarray(place, place + length)], [...GIVEN[name]]);
      }
      same([...bytes.subarray(words.needed.place, words.needed.place + 8)], Array(8).fill(0));
    }
  },
  "what a call gets lies behind what the module has, within its memory, and apart"() {
    for (const call in CALL_FORMS) {
      const { desk, notes } = noting(0, 1n);
      desk.text(call, GIVEN);
      let end = OWN_END;
      for (const [from, to] of rangesOf(notes.words)) {
        same([call, from >= end], [call, true]);
        end = to;
      }
      same(end <= notes.bytes.length, true);
    }
  },
  "a memory grows as far as the last buffer goes, also where that begins at the memory's end"() {
    const { desk, notes } = noting(0);
    desk.text("vf_run", GIVEN);
    const last = Math.max(...rangesOf(notes.words).map(([from]) => from));
    for (const beyond of [-8, 0, 8]) {
      const ownEnd = OWN_END + beyond + 65536 - last % 65536;
      const { desk: other, notes: found } = noting(0, 1n, 99n, ownEnd);
      other.text("vf_run", GIVEN);
      same(rangesOf(found.words).every(([, to]) => to <= found.bytes.length), true);
    }
  },
  "a module that writes nothing is told with its status, whatever was in its memory"() {
    const words = "The script, its files, or what would be written are too long for the module";
    for (const status of [2, 3, 5]) {
      same(told(() => noting(status).desk.text("vf_run", GIVEN)), `${words} (status ${status}).`);
    }
  },
  "a memory that can't grow so far is told, and the module begins anew"() {
    const { exports } = noting(0, 1n, 2n);
    let made = 0;
    const desk = new Desk(() => {
      made++;
      return exports;
    });
    same([told(() => desk.text("vf_run", GIVEN)).startsWith("The module stopped ("), made], [true, 2]);
  },
  "a module whose call takes more is told, as one whose call takes less"() {
    for (const length of [12, 14]) {
      const { exports } = noting(0);
      const vf_map = Object.defineProperty(() => 0, "length", { value: length });
      const fault = told(() => new Desk(() => ({ ...exports, vf_map })));
      same(fault, "The module's vf_map doesn't take what this page gives to it.");
    }
  },
};

runAll(DESK_TESTS);
