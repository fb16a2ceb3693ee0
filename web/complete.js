// What the word at the end of a line may become, by the forms of commands and by what is live.

import { FORMS, isKind } from "./words.js";

const ANCHORS = 64;
// The first number of an area that was made.
const FIRST_MADE = 256;
// The words that are offered at most.
const MOST_OFFERED = 24;
// Commands whose anchor must be free.
const NEEDS_FREE_ANCHOR = ["alloc", "load", "scrap"];
// Commands of tasks with code of their own; and such as take an address in any block.
const OF_RAW_TASKS = ["send", "ack", "write", "transfer", "spool", "scrap"];
const IN_ANY_BLOCK = ["read", "write", "transfer"];
// So many messages are offered that may be answered.
const MOST_ANSWERED = 8;
// The numbers of the actions that other tasks know.
const ACTIONS = { 1: "DataSave", 2: "DataSaveAck", 3: "DataLoad", 4: "DataLoadAck", 6: "RAMFetch", 7: "RAMTransmit" };
const FETCH = "6";

// The words of a line; the last is the one that is being typed, and may be empty.
export function typedWords(line) {
  return line.replace(/^ +/, "").split(/ +/);
}

// Whether a form may become of words of which the last is being typed.
function fits(form, words) {
  const last = words.length - 1;
  if (words.length > form.words.length) return words.length === form.words.length + 1 && words[last] === "" && last > 0
    && fits(form, words.slice(0, last)) && isWhole(form, words.slice(0, last));
  return words.every((word, at) => isKind(form.words[at])
    || (at === last ? form.words[at].startsWith(word) : form.words[at] === word));
}

// Whether all words that a form has by themselves stand there.
function isWhole(form, words) {
  return form.words.every((word, at) => isKind(word) || word === words[at]);
}

// The forms of commands that a line may become, as far as it is typed.
export function formsFor(line) {
  const words = typedWords(line);
  return words[0] === "" ? [] : FORMS.filter((form) => fits(form, words));
}

// What is told of the word that is being typed: what its kind is in a form.
export function aboutWord(form, line) {
  const at = typedWords(line).length - 1;
  return form.about[at] ? `${form.words[at]}: ${form.about[at]}` : form.says;
}

const sized = ({ size }) => `${size} bytes`;

// The anchors that fit: those of blocks, or the first that has none.
function anchors(command, task, live) {
  const blocks = live.blocks(task);
  if (!NEEDS_FREE_ANCHOR.includes(command)) return blocks.map((it) => ({ word: it.anchor, about: sized(it) }));
  const used = new Set(blocks.map(({ anchor }) => Number(anchor)));
  const free = Array.from({ length: ANCHORS }, (_, at) => at).find((at) => !used.has(at));
  return free === undefined ? [] : [{ word: String(free), about: "the first without a block" }];
}

// The tasks for which a command is.
function tasksFor(command, live) {
  if (command === "task") return [];
  const raw = live.started.filter(({ isRaw }) => isRaw).map(({ name }) => name);
  if (OF_RAW_TASKS.includes(command)) return raw;
  return command === "save" ? live.tasks.filter((name) => !raw.includes(name)) : live.tasks;
}

// The addresses that fit: of a task's blocks or, behind a handle, of those of the task that has it.
function addresses([command, task, , ...others], live) {
  const owner = others.length > 1 ? live.started.find(({ handle }) => handle === others[0])?.name : task;
  if (!owner) return [];
  const blocks = IN_ANY_BLOCK.includes(command) ? live.blocks(owner) : [];
  return [...live.used(owner), ...blocks].map((it) => ({ word: it.address, about: sized(it) }));
}

// A number as the four bytes of a word in memory, in hexadecimal.
function wordInMemory(number) {
  return Array.from({ length: 4 }, (_, at) => (number >>> 8 * at & 255).toString(16).padStart(2, "0")).join("");
}

// The data that fit: of a RAMFetch the address and the size of a block, else those of the message that is answered.
function dataFor([, task, , , ref, action], live) {
  if (action !== FETCH) {
    return live.taken(task).filter((it) => it.ref === ref && it.data)
      .map((it) => ({ word: it.data, about: `as ${it.action} ${ref} has them` }));
  }
  return live.used(task).map(({ address, size }) => ({
    word: wordInMemory(parseInt(address.slice(1), 16)) + wordInMemory(Number(size)), about: `${address}, ${size} bytes`,
  }));
}

// The words of a kind that are live.
const LIVE_WORDS = {
  NAME: ([command], live) => tasksFor(command, live).map((word) => ({ word, about: "a task" })),
  TO: ([, task], live) => live.tasks.filter((word) => word !== task).map((word) => ({ word, about: "a task" })),
  FILE: (words, live, files) => files.map(({ name, bytes }) => ({ word: name, about: `${bytes.length} bytes` })),
  A: ([command, task], live) => anchors(command, task, live),
  K: ([command], live) => live.areas.filter(({ number }) => command !== "remove" || number >= FIRST_MADE)
    .map(({ number, pages }) => ({ word: number, about: `${pages} pages` })),
  ID: ([, task, way], live) => live.transfers(task, way).map(({ id, state }) => ({ word: id, about: state })),
  ADDR: (words, live) => words[0] === "rma" ? live.inModuleArea.map((word) => ({ word, about: "a block" }))
    : addresses(words, live),
  CODE: () => [{ word: "17", about: "wants no answer" }, { word: "18", about: "wants an answer" }],
  HANDLE: ([, task], live) => live.started.filter(({ name }) => name !== task)
    .map(({ name, handle }) => ({ word: handle, about: `the handle of ${name}` })),
  REF: ([, task], live) => [...live.taken(task).slice(0, MOST_ANSWERED).map(({ ref, action }) =>
    ({ word: ref, about: `answers ${action} ${ref}` })), { word: "0", about: "answers nothing" }],
  ACTION: () => Object.entries(ACTIONS).map(([word, about]) => ({ word, about })),
  DATA: dataFor,
};

// The words that may stand at the end of a line in place of the one that is being typed, each once.
export function candidates(line, live, files) {
  const words = typedWords(line);
  const at = words.length - 1;
  const kinds = new Set(formsFor([...words.slice(0, at), ""].join(" ")).map((form) => form.words[at]));
  if (at === 0) FORMS.forEach((form) => kinds.add(form.words[0]));
  const all = [...kinds].filter(Boolean).flatMap((kind) =>
    isKind(kind) ? LIVE_WORDS[kind]?.(words, live, files) ?? [] : [{ word: kind, about: "" }]);
  const wanted = words[at].toLowerCase();
  const fitting = all.filter(({ word }) => word.toLowerCase().startsWith(wanted) && word !== words[at]);
  return [...new Map(fitting.map((it) => [it.word, it])).values()].slice(0, MOST_OFFERED);
}
