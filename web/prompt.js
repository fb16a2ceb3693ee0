// The prompt: a line is typed and entered; Tab completes its words; the arrow keys go through what was entered before.

import { aboutWord, candidates, formsFor, typedWords } from "./complete.js";
import { element } from "./prose.js";

// A form as it is shown, with the word marked that is being typed.
function formShown(form, at) {
  const code = element("code");
  const words = form.words.map((word, index) => index === at ? element("b", "", word) : word);
  code.append(...words.flatMap((word, index) => index ? [" ", word] : [word]));
  return code;
}

export class Prompt {
  #field;
  #hint;
  #live;
  #files;
  #enter;
  #entered = [];
  // The place in what was entered; its length stands for the line that is being typed.
  #at = 0;
  #typed = "";
  #usualHint = "";
  // What Tab goes through: the line before the word, the words that fit, and which of them stands in the field.
  #offered;

  // Of its elements, what is live, a function that gives the files, and one that takes the lines that are entered.
  constructor({ form, field, hint }, live, files, enter) {
    this.#field = field;
    this.#hint = hint;
    this.#live = live;
    this.#files = files;
    this.#enter = enter;
    form.addEventListener("submit", (event) => {
      event.preventDefault();
      if (field.value) this.#submit([field.value]);
    });
    field.addEventListener("paste", (event) => this.#onPaste(event));
    field.addEventListener("keydown", (event) => this.#onKey(event));
    field.addEventListener("input", () => {
      this.#offered = undefined;
      this.#tellForms();
    });
    hint.addEventListener("click", (event) => {
      const word = event.target.closest("button")?.value;
      if (word !== undefined) this.#take(word);
    });
  }

  focus() {
    this.#field.focus();
  }

  // Shows a hint where no command is being typed.
  set usualHint(hint) {
    this.#usualHint = hint;
    this.#tellForms();
  }

  #submit(lines) {
    for (const line of lines) {
      if (line !== "" && line !== this.#entered.at(-1)) this.#entered.push(line);
    }
    this.#at = this.#entered.length;
    this.#write("");
    this.#enter(lines);
  }

  // Enters pasted lines at once, with what is typed around them; a part of a line is pasted as ever.
  #onPaste(event) {
    const pasted = event.clipboardData.getData("text/plain");
    if (!/[\r\n]/.test(pasted)) return;
    event.preventDefault();
    const { value, selectionStart, selectionEnd } = this.#field;
    const lines = (value.slice(0, selectionStart) + pasted + value.slice(selectionEnd)).split(/\r\n|\r|\n/);
    if (lines.at(-1) === "") lines.pop();
    this.#submit(lines);
  }

  #onKey(event) {
    if (event.isComposing) return;
    if (event.key === "Tab" && this.#complete(event)) event.preventDefault();
    const moves = { ArrowUp: -1, ArrowDown: 1 };
    if (event.key in moves) {
      event.preventDefault();
      this.#goThrough(moves[event.key]);
    }
    if (event.key === "Escape") this.#escape();
  }

  // Gives back what was typed before the arrow keys were used, or takes away what is typed.
  #escape() {
    const wasTyped = this.#at === this.#entered.length;
    this.#at = this.#entered.length;
    this.#write(wasTyped ? "" : this.#typed);
  }

  // Goes one line back or on in what was entered.
  #goThrough(by) {
    const at = this.#at + by;
    if (at < 0 || at > this.#entered.length) return;
    if (this.#at === this.#entered.length) this.#typed = this.#field.value;
    this.#at = at;
    this.#write(at === this.#entered.length ? this.#typed : this.#entered[at]);
  }

  #write(line) {
    this.#field.value = line;
    this.#field.setSelectionRange(line.length, line.length);
    this.#offered = undefined;
    this.#tellForms();
  }

  // ---- completion

  // The words that fit at the end of the line.
  get #fitting() {
    return candidates(this.#field.value, this.#live, this.#files());
  }

  // The line before the word that is being typed.
  get #front() {
    const { value } = this.#field;
    return this.#offered?.front ?? value.slice(0, value.length - typedWords(value).at(-1).length);
  }

  // Puts a word that fits at the end of the line, or the next one; Shift goes back among them. Gives whether there is
  // one: where nothing is typed, or nothing fits, the key leaves the field.
  #complete({ shiftKey, ctrlKey, altKey, metaKey }) {
    const { value, selectionEnd } = this.#field;
    const isPlain = !ctrlKey && !altKey && !metaKey;
    if (!isPlain || value.trim() === "" || selectionEnd !== value.length || (shiftKey && !this.#offered)) return false;
    if (!this.#offered) this.#offer();
    const { front, words, at } = this.#offered ?? { words: [] };
    if (!words.length) return false;
    if (words.length === 1) {
      this.#take(words[0].word);
      return true;
    }
    this.#offered.at = (at + (shiftKey ? words.length - 1 : 1)) % words.length;
    this.#field.value = front + words[this.#offered.at].word;
    this.#tellForms();
    return true;
  }

  // Finds the words for Tab to go through, from before the first on.
  #offer() {
    const words = this.#fitting;
    if (words.length) this.#offered = { front: this.#front, words, at: -1 };
  }

  // Takes a word, with a space where more may come.
  #take(word) {
    const line = this.#front + word;
    const count = typedWords(line).length;
    const goesOn = formsFor(line).some((form) => form.words.length > count);
    this.#write(goesOn ? `${line} ` : line);
    this.#field.focus();
  }

  // ---- what stands below

  #tellForms() {
    const { value } = this.#field;
    if (value.trim() === "") {
      this.#hint.replaceChildren(this.#usualHint);
      return;
    }
    const at = typedWords(value).length - 1;
    const forms = formsFor(value);
    const abouts = new Set(forms.map((form) => aboutWord(form, value)));
    const told = abouts.size === 1 ? [...abouts].map((it) => element("span", "about", it)) : [];
    const words = this.#offered?.words ?? (at > 0 && forms.length ? this.#fitting : []);
    this.#hint.replaceChildren(...forms.map((form) => formShown(form, at)), ...told, ...this.#buttons(words));
    if (!forms.length) this.#hint.textContent = "No command begins so.";
  }

  // Buttons for words that fit, of which the one in the field is marked.
  #buttons(words) {
    return words.map(({ word, about }, at) => {
      const button = element("button", "word", word);
      Object.assign(button, { type: "button", value: word, title: about, tabIndex: -1 });
      button.ariaPressed = String(at === this.#offered?.at);
      return button;
    });
  }
}
