// The bar in which the next reply is guessed before the command runs.

import { isSameAnswer } from "./lessons.js";

// What is told of a guess beside a reply, and whether that is right, nearly right or wrong.
export function judged(given, reply) {
  const first = reply.split("\n", 1)[0];
  const [outcome, ...others] = first.split(" ");
  const rest = others.join(" ");
  if (given.trim() === "") return { kind: "", says: `It is: ${first}` };
  const isRight = isSameAnswer(given, first) || isSameAnswer(given, rest || outcome);
  if (isRight) return { kind: "right", says: `Right: ${first}` };
  const isNear = rest !== "" && isSameAnswer(given.trim().split(/ +/)[0], outcome);
  return { kind: "wrong", says: `${isNear ? "Nearly" : "No"}: ${first}` };
}

export class Guess {
  #session;
  #parts;
  #count = { right: 0, all: 0 };

  // Of the session and the elements of the bar.
  constructor(session, parts) {
    this.#session = session;
    this.#parts = parts;
    parts.predict.addEventListener("change", () => {
      this.show();
      if (this.isOn) parts.guessed.focus();
    });
    parts.guess.addEventListener("submit", (event) => {
      event.preventDefault();
      this.compare();
    });
  }

  // The place of the next command, or -1.
  get #next() {
    const { replies, state } = this.#session;
    return replies.findIndex((reply, at) => at >= state.position && reply !== null);
  }

  // Whether a step compares a guess.
  get isOn() {
    return this.#parts.predict.checked && this.#next >= 0;
  }

  // Forgets what was guessed of another script.
  forget() {
    this.#count = { right: 0, all: 0 };
    this.#parts["guess-told"].textContent = "";
    this.#parts["guess-told"].className = "";
  }

  show() {
    const { guess, guessed, compare } = this.#parts;
    guess.hidden = !this.#parts.predict.checked || !this.#session.state.lines.length;
    const next = this.#next;
    const hadFocus = guess.contains(document.activeElement);
    for (const part of [this.#parts["guess-asks"], guessed, compare]) part.hidden = next < 0;
    if (next < 0) {
      if (hadFocus) this.#parts.step.focus();
      return;
    }
    const line = this.#parts["guess-line"];
    if (line.textContent !== String(next + 1)) guessed.value = "";
    line.textContent = next + 1;
    this.#parts["guess-command"].textContent = this.#session.state.lines[next];
  }

  // Runs the next command, and tells how its reply and the guess compare.
  compare() {
    const { guessed } = this.#parts;
    const told = this.#parts["guess-told"];
    const { kind, says } = judged(guessed.value, this.#session.replies[this.#next]);
    if (kind) this.#count.all++;
    if (kind === "right") this.#count.right++;
    guessed.value = "";
    this.#session.step();
    told.className = kind;
    told.textContent = kind ? `${says} (${this.#count.right} of ${this.#count.all})` : says;
  }
}
