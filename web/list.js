// The script on the page: a row for each line, with its reply. Of a long script some lines around a place have rows.

import { explained } from "./explain.js";
import { mended, mendedLines } from "./mend.js";
import { element } from "./prose.js";
import { isRemark, outcomeOf } from "./script.js";

// The rows at most, and by how many lines they move at once.
const ROWS = 400;
const MOVE = 200;
// The characters of a reply that are shown.
const SHOWN_REPLY = 4000;
// The rows at most on paper.
const PRINTED_ROWS = 5000;
// How much of the list is above the line that ran last, where this has to be brought into view.
const ABOVE = 0.7;
// What tells why a line went as it did, beside the one that ran last.
const TOLD = ["refused", "bad"];
const FITS_BY_ITSELF = CSS.supports("field-sizing", "content");

// A reply as it is shown: cut where it is very long.
function shownReply(reply) {
  return reply.length > SHOWN_REPLY ? `${reply.slice(0, SHOWN_REPLY)}.. (${reply.length} characters)` : reply;
}

// A button that mends something.
function fixButton(text, action) {
  const button = element("button", "fix", text);
  button.type = "button";
  button.addEventListener("click", action);
  return button;
}

// How many lines of a script have characters that part no words, where its line at a place is one of several.
function countOdd(lines, index) {
  if (mended(lines[index]) === lines[index]) return 0;
  const { count } = mendedLines(lines);
  return count > 1 ? count : 0;
}

// One line of the script, whose place changes as others come and go.
class Row {
  index = -1;
  #list;
  #line = "";
  root = element("li", "row");
  #number = element("button", "number");
  field = element("textarea", "line");
  #reply = element("div", "reply");
  #why = element("div", "why");
  #explainedFor = "";
  #remove = element("button", "remove");

  constructor(list) {
    this.#list = list;
    Object.assign(this.#number, { type: "button", tabIndex: -1 });
    Object.assign(this.#remove, { type: "button", tabIndex: -1, textContent: "\u00d7" });
    Object.assign(this.field, { rows: 1, spellcheck: false, autocomplete: "off", autocapitalize: "off" });
    this.root.append(this.#number, this.field, this.#reply, this.#why, this.#remove);
    this.#number.addEventListener("click", () => list.session.moveTo(this.index + 1));
    this.#remove.addEventListener("click", () => list.remove(this.index));
    this.field.addEventListener("change", () => this.commit(list));
    this.field.addEventListener("input", () => this.fit());
    this.field.addEventListener("keydown", (event) => list.onKey(event, this));
    this.field.addEventListener("focus", () => list.onFocus(this));
  }

  // Shows the line at a place of a session.
  show(session, index) {
    const { lines, position } = session.state;
    const hasRun = index < position;
    const reply = hasRun ? session.replies[index] : null;
    const isOther = this.index !== index || this.#line !== lines[index];
    this.index = index;
    if (isOther) this.#name(index + 1);
    this.#reply.textContent = reply === null ? "" : shownReply(reply);
    this.root.className = ["row", outcomeOf(reply)].join(" ");
    this.root.classList.toggle("ahead", !hasRun);
    this.root.classList.toggle("current", index === session.command);
    this.root.classList.toggle("remark", isRemark(lines[index]));
    this.root.classList.toggle("changed", hasRun && session.changed.has(index));
    if (isOther) this.#write(lines[index]);
    const isLast = index === session.command;
    const isTold = isLast || TOLD.includes(outcomeOf(reply));
    const odd = isLast && outcomeOf(reply) === "bad" ? countOdd(lines, index) : 0;
    this.#explain(session, lines[index], isTold ? reply : null, odd);
  }

  // Tells what the line did, why it was refused, or what is wrong with it. A near miss has a button that mends it; so
  // have all odd lines together, where it is one of some.
  #explain(session, line, reply, odd) {
    const key = reply === null ? "" : `${line}\n${reply}\n${odd}`;
    if (key === this.#explainedFor) return;
    this.#explainedFor = key;
    const { outcome, says, fix } = reply === null ? {} : explained(line, reply);
    this.#why.className = `why ${outcome ?? ""}`.trim();
    this.#why.replaceChildren(says ?? "");
    if (fix !== undefined) {
      const words = fix === line ? "End the line" : `Make it: ${fix.trim()}`;
      this.#offer(words, () => session.replace(this.index, this.index + 1, [fix]));
    }
    if (!odd) return;
    this.#offer(`Mend all ${odd} such lines`, () => session.change({ lines: mendedLines(session.state.lines).lines }));
  }

  // Shows a button that mends something; it goes then, and leaves the focus to the line.
  #offer(words, action) {
    const mend = () => {
      action();
      this.#list.focus(this.index);
    };
    this.#why.append(" ", fixButton(words, mend));
  }

  // Names what stands in the row by the line's number.
  #name(number) {
    this.#number.textContent = number;
    this.#number.ariaLabel = `Run up to line ${number}`;
    this.#number.title = `Run up to line ${number}`;
    this.#remove.ariaLabel = `Take line ${number} away`;
    this.#remove.title = `Take line ${number} away`;
    this.#reply.id = `reply-${number}`;
    this.#why.id = `why-${number}`;
    this.field.ariaLabel = `Line ${number}`;
    this.field.setAttribute("aria-describedby", `${this.#reply.id} ${this.#why.id}`);
  }

  #write(line) {
    this.#line = line;
    this.field.value = line;
    this.fit();
  }

  // Makes the field as high as its text, where the browser doesn't.
  fit() {
    if (FITS_BY_ITSELF) return;
    this.field.style.height = "auto";
    this.field.style.height = `${this.field.scrollHeight}px`;
  }

  // Gives the field what the script has.
  restore() {
    this.#write(this.#line);
  }

  // Whether the field was changed. A field holds no carriage return.
  get isEdited() {
    return this.field.value !== this.#line.replace(/\r\n?/g, "\n");
  }

  // Puts what was typed into the script.
  commit(list) {
    if (!this.isEdited) return;
    const lines = this.field.value.split("\n");
    this.restore();
    list.session.replace(this.index, this.index + 1, lines);
  }
}

export class List {
  #root;
  #scroller;
  #earlier;
  #later;
  #leave;
  #rows = [];
  #most = ROWS;
  #first = 0;
  // The line whose field is reached by the tab key.
  #focused = 0;

  // Of the elements in which it stands, and a function that takes the focus behind the last line.
  constructor(session, { root, scroller, earlier, later }, leave) {
    this.session = session;
    this.#leave = leave;
    this.#root = root;
    this.#scroller = scroller;
    this.#earlier = earlier;
    this.#later = later;
    earlier.addEventListener("click", () => this.#showMore(-MOVE));
    later.addEventListener("click", () => this.#showMore(MOVE));
    addEventListener("resize", () => this.fit());
    addEventListener("beforeprint", () => this.#allow(PRINTED_ROWS));
    addEventListener("afterprint", () => this.#allow(ROWS));
  }

  // Shows the session. The line that ran last comes into view, unless the list is being worked in; it has the focus
  // where this was on a button that isn't needed now.
  show() {
    const at = Math.max(0, this.session.state.position - 1);
    const { activeElement } = document;
    const isWorkedIn = this.#root.contains(activeElement);
    if (!isWorkedIn) this.#focused = at;
    if (!isWorkedIn && (at < this.#first || at >= this.#first + this.#most)) this.#first = at - MOVE;
    this.#moveRows(this.#first);
    if (!isWorkedIn) this.#reveal(at);
    if (activeElement.hidden && [this.#earlier, this.#later].includes(activeElement)) this.focus(at);
  }

  // Makes the fields as high as their texts, also after the list wasn't seen.
  fit() {
    this.#rows.forEach((row) => row.fit());
  }

  // Lets so many lines have rows, as many more go on paper.
  #allow(most) {
    this.#most = most;
    this.#moveRows(this.#first);
  }

  // Gives rows to lines before or behind. A button that isn't needed then leaves the focus to a line.
  #showMore(by) {
    this.#moveRows(this.#first + by);
    if (by < 0 && this.#earlier.hidden) this.focus(this.#first);
    if (by > 0 && this.#later.hidden) this.focus(this.session.state.lines.length - 1);
  }

  // Gives rows to the lines from a place on.
  #moveRows(first) {
    const count = this.session.state.lines.length;
    this.#first = Math.max(0, Math.min(first, count - this.#most));
    const shown = Math.min(this.#most, count - this.#first);
    while (this.#rows.length > shown) this.#rows.pop().root.remove();
    while (this.#rows.length < shown) this.#addRow();
    this.#rows.forEach((row, at) => row.show(this.session, this.#first + at));
    this.#markTabStop();
    this.#tellRest(this.#earlier, this.#first, "earlier");
    this.#tellRest(this.#later, count - this.#first - shown, "later");
  }

  #addRow() {
    const row = new Row(this);
    this.#rows.push(row);
    this.#root.append(row.root);
  }

  // Tells how many lines have no row on one side.
  #tellRest(button, count, side) {
    button.hidden = count === 0;
    button.textContent = `${count.toLocaleString("en")} ${side} ${count === 1 ? "line" : "lines"}: show some`;
  }

  // Lets the tab key reach one row, the nearest where the line that it would be has none.
  #markTabStop() {
    const stop = Math.max(this.#first, Math.min(this.#focused, this.#first + this.#rows.length - 1));
    for (const row of this.#rows) row.field.tabIndex = row.index === stop ? 0 : -1;
  }

  #rowAt(index) {
    return this.#rows[index - this.#first];
  }

  // Scrolls the list until a line is in view.
  #reveal(index) {
    const row = this.#rowAt(index)?.root;
    if (!row) return;
    const { top, bottom } = row.getBoundingClientRect();
    const frame = this.#scroller.getBoundingClientRect();
    if (top >= frame.top && bottom <= frame.bottom) return;
    const room = Math.max(0, frame.height - (bottom - top));
    this.#scroller.scrollTop += top - frame.top - Math.min(ABOVE * frame.height, room);
  }

  // Moves the focus to the field of a line; behind the last one it leaves the list.
  focus(index) {
    if (index < 0) return;
    if (index >= this.session.state.lines.length) {
      this.#leave();
      return;
    }
    if (!this.#rowAt(index)) this.#moveRows(index - MOVE);
    this.#rowAt(index).field.focus();
    this.#reveal(index);
  }

  onFocus(row) {
    this.#focused = row.index;
    this.#markTabStop();
  }

  // Takes a line away; the focus goes to the one in its place.
  remove(index) {
    this.session.replace(index, index + 1, []);
    this.focus(index);
  }

  // Does what a key asks for in the field of a row.
  onKey(event, row) {
    const action = actionOf(event, row.field);
    if (!action) return;
    event.preventDefault();
    const { index } = row;
    const actions = {
      above: () => this.#commitAnd(row, () => this.focus(index - 1)),
      below: () => this.#commitAnd(row, () => this.focus(index + 1)),
      run: () => this.#commitAnd(row, () => this.session.moveTo(index + 1)),
      restore: () => row.restore(),
      remove: () => this.remove(index),
    };
    actions[action]();
  }

  // Whether a field is that of a line into which nothing was typed.
  isUnedited(field) {
    return this.#rows.some((row) => row.field === field && !row.isEdited);
  }

  // Puts what is being typed into a line into the script.
  commitTyped() {
    this.#rows.find((row) => row.field === document.activeElement)?.commit(this);
  }

  #commitAnd(row, action) {
    row.commit(this);
    action();
  }
}

// Whether a field shows one row of characters.
function isOneRow(field) {
  return field.scrollHeight < 2 * parseFloat(getComputedStyle(field).lineHeight);
}

// What a key asks for in the field of a line, if anything.
function actionOf({ key, ctrlKey, metaKey, shiftKey, isComposing }, field) {
  if (isComposing) return undefined;
  const isAtStart = field.selectionEnd === 0;
  const isAtEnd = field.selectionStart === field.value.length;
  if (key === "ArrowUp" && (isAtStart || isOneRow(field))) return "above";
  if (key === "ArrowDown" && (isAtEnd || isOneRow(field))) return "below";
  if (key === "Enter" && (ctrlKey || metaKey)) return "run";
  if (key === "Enter" && !shiftKey) return "below";
  if (key === "Escape") return "restore";
  return key === "Backspace" && field.value === "" ? "remove" : undefined;
}
