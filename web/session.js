// What the page keeps: a script, how many of its lines have run, the pages and the files; and the replies to it all.

import { bytesOf, textOf } from "./bytes.js";
import { KINDS, Refusal, packedFiles } from "./desk.js";
import {
  addedByMark, commandBefore, lastReplyOf, linesOf, markedText, positionAfterStep, positionBeforeStep, repliesByLine,
  textOfLines,
} from "./script.js";

export const LEAST_PAGES = 8;
export const MOST_PAGES = 1024;
export const USUAL_PAGES = 64;
// The characters of a script at most.
const MOST_CHARACTERS_OF_SCRIPT = 1 << 23;
// How many changes can be taken back.
const MOST_PAST = 50;
// The characters of a script's name at most.
const MOST_NAME = 100;

// Of a script: the example that it was made of, its name and lines, how many have run, pages and files.
const EMPTY = { example: "", name: "script.desk", lines: [], isCut: false, position: 0, pages: USUAL_PAGES, files: [] };

// Whether a pool can have so many pages.
export function arePages(pages) {
  return Number.isInteger(pages) && pages >= LEAST_PAGES && pages <= MOST_PAGES;
}

// The name that a script gets: that of the file as which it is saved.
export function deskName(name) {
  const stem = name.replaceAll("/", "-").replace(/\.(desk|txt)$/, "").slice(0, MOST_NAME);
  return `${stem || "script"}.desk`;
}

// The places at which two runs of equally many lines have other replies.
function otherReplies(before, after) {
  if (before.length !== after.length) return new Set();
  return new Set(after.flatMap((reply, at) => reply === before[at] ? [] : [at]));
}

export class Session {
  #desk;
  // What the script was before changes, the last one behind, and what it was before they were taken back.
  #past = [];
  #ahead = [];
  #listeners = [];
  #loadListeners = [];
  state = EMPTY;
  // The reply to each line of the whole script, null for a line that has none.
  replies = [];
  // The place of the last line that has run and has a reply, or -1.
  command = -1;
  // The lines whose replies the last change has changed.
  changed = new Set();
  // Why there are no replies, or an empty text.
  fault = "";

  constructor(desk) {
    this.#desk = desk;
  }

  // Calls a function after each change.
  onChange(listener) {
    this.#listeners.push(listener);
  }

  // Calls a function after another script was loaded.
  onLoad(listener) {
    this.#loadListeners.push(listener);
  }

  #tell() {
    this.command = commandBefore(this.replies, this.state.position);
    for (const listener of this.#listeners) listener();
  }

  get canUndo() {
    return this.#past.length > 0;
  }

  get canRedo() {
    return this.#ahead.length > 0;
  }

  // All that a tab needs to go on with the session when it is loaded again.
  get history() {
    return { past: this.#past, state: this.state, ahead: this.#ahead };
  }

  // Goes on where a session was.
  resume({ past, state, ahead }) {
    this.#past = past;
    this.#ahead = ahead;
    this.#show(state);
    for (const listener of this.#loadListeners) listener();
  }

  // The whole script.
  get text() {
    return textOfLines(this.state.lines, this.state.isCut);
  }

  // What a call of the module gets for a script of the session.
  #job(text, marked) {
    const { pages, name, files } = this.state;
    return { pages, script: bytesOf(text), name: bytesOf(name), files: packedFiles(files), marked };
  }

  // Makes a change and runs all of it anew.
  change(change) {
    this.#past.push(this.state);
    if (this.#past.length > MOST_PAST) this.#past.shift();
    this.#ahead = [];
    this.#show({ ...this.state, ...change });
  }

  // Takes the last change back.
  undo() {
    if (!this.canUndo) return;
    this.#ahead.push(this.state);
    this.#show(this.#past.pop());
  }

  // Makes the change again that was taken back last.
  redo() {
    if (!this.canRedo) return;
    this.#past.push(this.state);
    this.#show(this.#ahead.pop());
  }

  #show(state) {
    const before = this.replies;
    this.state = state;
    this.#run();
    this.changed = otherReplies(before, this.replies);
    this.#tell();
  }

  // Runs the whole script.
  #run() {
    this.fault = "";
    this.replies = this.state.lines.map(() => null);
    try {
      if (this.text.length > MOST_CHARACTERS_OF_SCRIPT) throw new Refusal("The script is too long for this page.");
      const replies = repliesByLine(this.state, textOf(this.#desk.text("vf_run", this.#job(this.text, 0))));
      if (!replies) throw new Refusal("The replies don't fit the lines of the script.");
      this.replies = replies;
    } catch (fault) {
      if (!(fault instanceof Refusal)) throw fault;
      this.fault = fault.message;
    }
  }

  // Has just so many lines run.
  moveTo(position) {
    this.state = { ...this.state, position: Math.max(0, Math.min(position, this.state.lines.length)) };
    this.changed = new Set();
    this.#tell();
  }

  step() {
    this.moveTo(positionAfterStep(this.replies, this.state.position));
  }

  back() {
    this.moveTo(positionBeforeStep(this.replies, this.state.position));
  }

  // Loads a script, none of whose lines has run.
  load({ name, text, pages = USUAL_PAGES, files = [], position = 0, example = "" }) {
    const script = linesOf(text);
    const at = Math.max(0, Math.min(Math.trunc(position), script.lines.length)) || 0;
    this.change({ ...script, example, name: deskName(name), pages, files, position: at });
    for (const listener of this.#loadListeners) listener();
  }

  // Puts lines in behind those that have run, and runs them.
  enter(lines) {
    this.replace(this.state.position, this.state.position, lines);
  }

  // Puts lines in place of those from one place up to another.
  replace(from, to, lines) {
    const { lines: old, isCut, position } = this.state;
    const longer = lines.length - (to - from);
    this.change({
      lines: [...old.slice(0, from), ...lines, ...old.slice(to)],
      isCut: isCut && to < old.length,
      position: position >= to ? position + longer : Math.min(position, from + lines.length),
    });
  }

  // The text that a call of the module writes of the last step alone, or of the whole script.
  // A lens has a width and a scale.
  drawn(call, isWhole, size = {}) {
    const text = isWhole ? this.text : markedText(this.state, this.command);
    return this.#desk.text(call, { ...this.#job(text, isWhole ? 0 : 1), ...size });
  }

  // How many lines the text of the last step has before its command that the script doesn't have.
  get added() {
    return addedByMark(this.state, this.command);
  }

  // What the module replies to a question behind the lines that have run.
  asked(question) {
    const { lines, position, isCut } = this.state;
    const end = isCut && position === lines.length ? position - 1 : position;
    const text = textOfLines([...lines.slice(0, end), question], false);
    return lastReplyOf(textOf(this.#desk.text("vf_run", this.#job(text, 0))));
  }

  // What the module replies to the last line of another script, over its own pages and files.
  replyTo({ lines, pages, files }) {
    const job = { pages, script: bytesOf(textOfLines(lines, false)), files: packedFiles(files) };
    return lastReplyOf(textOf(this.#desk.text("vf_run", job)));
  }

  // What the module says of bytes as a heap and as a slot: a line of each.
  checked(image) {
    return Object.entries(KINDS).map(([name, kind]) =>
      ({ name, line: textOf(this.#desk.text("vf_check", { kind, image })).trimEnd() }));
  }

  // Whether the module has a call.
  has(call) {
    return this.#desk.has(call);
  }
}
