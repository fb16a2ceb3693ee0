// The bar of steps: a slider over the commands of the script, with a tick for each.

import { titleOf } from "./script.js";

// A script with more commands has no ticks.
const MOST_TICKS = 120;

export class Steps {
  #session;
  #slider;
  #ticks;
  #replies;
  #commands = [];
  #asks = [];

  // Of the session, the slider and the element in which its ticks stand.
  constructor(session, { slider, ticks }) {
    this.#session = session;
    this.#slider = slider;
    this.#ticks = ticks;
    slider.addEventListener("input", () => session.moveTo(this.#positionOf(Number(slider.value))));
  }

  // The lines behind which a lesson asks something.
  set asks(lines) {
    this.#asks = lines;
    this.#replies = undefined;
  }

  // How many lines have run when so many commands have.
  #positionOf(count) {
    return count ? this.#commands[count - 1] + 1 : 0;
  }

  show() {
    const { state, command, replies } = this.#session;
    if (replies !== this.#replies) this.#take(replies);
    const later = this.#commands.findIndex((at) => at >= state.position);
    const count = later < 0 ? this.#commands.length : later;
    const most = this.#commands.length;
    Object.assign(this.#slider, { max: most, value: count, disabled: most === 0 });
    this.#slider.ariaValueText = command < 0 ? "before the first command"
      : `line ${command + 1}, ${state.lines[command]}: ${replies[command].split("\n", 1)[0]}`;
  }

  // Takes other replies up: the commands are the lines that have some.
  #take(replies) {
    this.#replies = replies;
    this.#commands = [...replies.keys()].filter((at) => replies[at] !== null);
    const isShort = this.#commands.length <= MOST_TICKS;
    this.#ticks.replaceChildren(...isShort ? this.#commands.map((at, index) => this.#tickOf(at, index)) : []);
  }

  // The tick of a command: with a dot where it has a title, and a mark where something is asked behind it.
  #tickOf(at, index) {
    const { lines } = this.#session.state;
    const before = lines.slice(index ? this.#commands[index - 1] + 1 : 0, at);
    const next = this.#commands[index + 1] ?? lines.length;
    const tick = document.createElement("i");
    tick.classList.toggle("titled", before.some((line) => titleOf(line)));
    tick.classList.toggle("asks", this.#asks.some((line) => line > at && line <= next));
    tick.dataset.at = index + 1;
    return tick;
  }
}
