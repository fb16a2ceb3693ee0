// What stands beside the script: memory after the last command, as a picture or as a map of characters, and messages.

import { shownText } from "./bytes.js";
import { Refusal } from "./desk.js";
import { Picture, lastStepOf } from "./picture.js";
import { element } from "./prose.js";
import { commandBefore, outcomeOf } from "./script.js";

const NO_LINES = "Nothing has run yet. Type a command at the prompt, or load an example.";
const NOTHING = "Nothing has run yet. Step runs the next command, Run all runs every line.";
const NO_COMMAND = "No command has run yet: the lines that have run are remarks, or empty.";
// What is told of a question, and of a command that is refused or bad.
const ASKS = /^ *(?:areas|show|blocks|heap|status|read)(?: |$)/;
const STAYS = "Memory stays as it is.";
const ASKED = "A question: memory stays as it is.";
// A command by which a script sends messages.
const SENDS = /^ *(?:save|send|spool) /;
// What can be shown, with the calls that draw it.
const VIEWS = [["lens", "vf_lens"], ["picture", "vf_draw"], ["map", "vf_map"]];
// How wide a lens may be, and what stands beside it in its frame, in pixels.
const [LEAST_WIDTH, MOST_WIDTH, BESIDE] = [300, 1700, 6];
// So many pixels of a lens 8 bytes may have.
const SCALES = [1, 2, 4, 8, 12, 16, 24, 32, 48, 64];
const NO_DRAWING = "The module of this page draws no pictures.";

// Why a session has no step to be shown.
function whyNoStep({ lines, position }) {
  if (position > 0) return NO_COMMAND;
  return lines.length ? NOTHING : NO_LINES;
}

// Why no change is told of a line with its reply: an empty text where that isn't known.
function stillness(line, reply) {
  if (outcomeOf(reply) !== "ok") return STAYS;
  return ASKS.test(line) ? ASKED : "";
}

// A line of the step that is shown: its number, its command and its reply.
function shownLine(session) {
  const number = document.createElement("b");
  const line = document.createElement("code");
  const reply = document.createElement("code");
  number.textContent = session.command + 1;
  line.textContent = session.state.lines[session.command];
  reply.textContent = session.replies[session.command].split("\n", 1)[0];
  reply.className = `reply ${outcomeOf(reply.textContent)}`;
  return [number, line, " → ", reply];
}

export class Memory {
  #session;
  #parts;
  #picture;
  #chart;
  // Whether the script sends messages, and the replies by which that is known.
  #sends = false;
  #replies;
  // The step whose picture was shown last: the lines and the pages of its script, and the place of its command.
  #pictured = { command: -1 };
  // Which of the scales a lens has.
  #scale = SCALES.indexOf(16);
  // What the last command has changed, in words; and that it changes nothing, where that is known.
  changes = [];
  #still = "";

  // Of the session and the elements in which it stands, and the style that is added to a sheet's own.
  constructor(session, parts, addedStyle) {
    this.#session = session;
    this.#parts = parts;
    this.#picture = new Picture(parts.picture, addedStyle);
    this.#chart = new Picture(parts.chart, addedStyle);
    parts.views.hidden = VIEWS.filter(([, call]) => session.has(call)).length < 2;
    for (const radio of this.#radios()) {
      radio.parentNode.hidden = !session.has(VIEWS.find(([view]) => view === radio.value)[1]);
      radio.addEventListener("change", () => {
        this.show();
        this.settle();
      });
    }
    parts.smaller.addEventListener("click", () => this.#rescale(-1));
    parts.larger.addEventListener("click", () => this.#rescale(1));
    // A click on the number of a line in the chart goes to that line.
    parts.chart.addEventListener("click", (event) => {
      const [target] = event.composedPath();
      if (target.matches?.(".beat")) session.moveTo(Number(target.textContent));
    });
  }

  #radios() {
    return [...this.#parts.views.querySelectorAll("input")];
  }

  // What is to be shown: a lens, a picture or a map, or nothing where the module has none.
  get #view() {
    const views = VIEWS.filter(([, call]) => this.#session.has(call));
    const chosen = this.#radios().find((radio) => radio.checked).value;
    return (views.find(([view]) => view === chosen) ?? views[0])?.[0];
  }

  // Shows memory as it is after the last command.
  show() {
    this.changes = [];
    this.#still = "";
    const isEmpty = this.#session.state.lines.length === 0;
    this.#parts.empty.hidden = !isEmpty;
    this.#makeRoomForMessages();
    // Where figures stand is asked for while they are drawn: their place is seen by then.
    this.#parts.picture.hidden = !["lens", "picture"].includes(this.#view);
    const fault = this.#session.fault || this.#draw();
    this.#parts.nothing.textContent = fault;
    this.#parts.nothing.hidden = !fault || isEmpty;
    const view = fault ? undefined : this.#view;
    if (fault) this.#picture.clear();
    this.#parts.picture.hidden = !["lens", "picture"].includes(view);
    for (const id of ["smaller", "larger"]) this.#parts[id].hidden = view !== "lens";
    this.#parts.map.hidden = view !== "map";
    this.#parts.shown.replaceChildren(...this.#session.command < 0 ? [] : shownLine(this.#session));
    this.#tellChanges();
  }

  // Draws what is to be shown, and gives why that can't be done, or an empty text.
  #draw() {
    if (this.#session.command < 0) return whyNoStep(this.#session.state);
    try {
      return this.#drawView(this.#view);
    } catch (fault) {
      if (fault instanceof Refusal) return fault.message;
      throw fault;
    }
  }

  #drawView(view) {
    if (view === undefined) return NO_DRAWING;
    const { added } = this.#session;
    const line = this.#session.command + 1;
    if (view === "map") {
      const map = shownText(this.#session.drawn("vf_map", false));
      this.#parts.map.textContent = added ? map.replace(new RegExp(`^${line + added}  `, "m"), `${line}  `) : map;
      return "";
    }
    const size = view === "lens" ? this.#size : {};
    const call = view === "lens" ? "vf_lens" : "vf_draw";
    const { style, memory, messages, legend, changes } =
      lastStepOf(this.#session.drawn(call, false, size), line, added);
    const { command, state: { lines, pages } } = this.#session;
    const isBeside = this.#isBesidePictured() && this.#pictured.form === JSON.stringify(size);
    this.#parts.picture.classList.toggle("through", view === "lens");
    const isBehind = isBeside && command > this.#pictured.command;
    this.#picture.show(style, memory, legend, isBeside, isBehind ? changes : []);
    this.#pictured = { command, lines, pages, form: JSON.stringify(size) };
    this.#showMessages(messages, style, isBeside);
    this.changes = changes;
    this.#still = stillness(lines[command], this.#session.replies[command]);
    return "";
  }

  // How large a lens is: as wide as its frame.
  get #size() {
    const room = this.#parts.frame.clientWidth || document.body.clientWidth;
    return { width: Math.max(LEAST_WIDTH, Math.min(MOST_WIDTH, room - BESIDE)), scale: SCALES[this.#scale] };
  }

  #rescale(by) {
    const scale = this.#scale + by;
    if (!(scale in SCALES)) return;
    this.#scale = scale;
    this.show();
    this.settle();
  }

  // Draws a lens anew where its frame has become wider or narrower.
  fit() {
    const isLens = this.#view === "lens" && this.#pictured.form;
    if (isLens && this.#pictured.form !== JSON.stringify(this.#size)) this.show();
  }

  // Whether the step is the one before the step that was shown last, or the one behind it: of the same script, or of
  // one that has the same lines up to there.
  #isBesidePictured() {
    const { command: old, lines, pages } = this.#pictured;
    const { command, replies, state } = this.#session;
    const [first, last] = [Math.min(old, command), Math.max(old, command)];
    if (first < 0 || commandBefore(replies, last) !== first || pages !== state.pages) return false;
    if (lines === state.lines) return true;
    return first === old && lines.slice(0, first + 1).every((line, at) => line === state.lines[at]);
  }

  // Messages have their place from the first step on where the script sends some.
  #makeRoomForMessages() {
    const { replies, state } = this.#session;
    if (replies !== this.#replies) {
      this.#replies = replies;
      this.#sends = state.lines.some((line, at) => SENDS.test(line) && outcomeOf(replies[at]) === "ok");
    }
    const hasRoom = this.#sends && ["lens", "picture"].includes(this.#view);
    this.#parts.messages.hidden = !hasRoom;
    this.#parts["no-messages"].hidden = false;
    document.body.classList.toggle("with-messages", hasRoom);
    this.#chart.clear();
  }

  #showMessages(messages, style, isBeside) {
    if (!messages.length) return;
    this.#parts["no-messages"].hidden = true;
    this.#chart.show(style, messages, [], isBeside);
  }

  // Brings what has changed and the last messages into view, once all of the page is as high as it gets.
  settle() {
    const { frame, messages } = this.#parts;
    this.#picture.settle(frame);
    if (!messages.hidden) messages.scrollTop = messages.scrollHeight;
  }

  // Tells what the last command has changed, or that it changes nothing.
  #tellChanges() {
    const { changes } = this.#parts;
    const isStill = this.changes.length === 0;
    changes.replaceChildren(...(isStill ? [this.#still] : this.changes).map((told) => element("li", "", told)));
    changes.classList.toggle("still", isStill);
    changes.hidden = isStill && !this.#still;
  }
}
