// The page: joins the parts, and does what its buttons and keys ask for.

import { bytesOfBase64, textOf, unpacked } from "./bytes.js";
import { Desk, isSupported } from "./desk.js";
import { areFiles } from "./files.js";
import { Guess } from "./guess.js";
import { Help } from "./help.js";
import { instantiator } from "./instance.js";
import { keep, kept } from "./kept.js";
import { hashIn, readHash } from "./link.js";
import { List } from "./list.js";
import { Live } from "./live.js";
import { Memory } from "./memory.js";
import { mendedLines, oddities } from "./mend.js";
import { Notice } from "./notice.js";
import { Panels, listenToPanes } from "./panels.js";
import { Prompt } from "./prompt.js";
import { element } from "./prose.js";
import { LEAST_PAGES, MOST_PAGES, Session, arePages, deskName } from "./session.js";
import { Share } from "./share.js";
import { Shelf, bytesOfFile } from "./shelf.js";
import { Steps } from "./steps.js";
import { Story } from "./story.js";

// The bytes of a script that can be opened at most: three times as many as it may have characters.
const MOST_OPENED = 3 << 23;
// The characters of a reply that are read out at most.
const MOST_SAID = 300;
// Buttons that do nothing where there is no script.
const NEED_LINES = ["save", "save-sheet", "print", "copy", "copy-text"];

// The elements of the page by their ids.
const parts = Object.fromEntries([...document.querySelectorAll("[id]")].map((it) => [it.id, it]));
const notice = new Notice(parts.notice);

// A number with the words for one or for many.
function counted(count, one, many) {
  return `${count} ${count === 1 ? one : many}`;
}

// Where a command goes in that is typed before the end of a script.
function placeHint(position) {
  return position ? `A command goes in behind line ${position}.` : "A command goes in before line 1.";
}

// Lets a button do something, or nothing. It can have the focus still, so that this isn't lost.
function enable(button, isEnabled) {
  button.ariaDisabled = isEnabled ? null : "true";
}

// A button with a number beside its words, by which a lesson is begun.
function lessonButton({ name, title }) {
  const [number, words] = title.split(/\. (.*)/);
  const button = element("button");
  Object.assign(button, { type: "button", value: name });
  button.append(element("b", "", number), element("span", "", words));
  return button;
}

class Page {
  #session;
  #list;
  #memory;
  #shelf;
  #prompt;
  #story;
  #steps;
  #guess;
  #panels;
  #share;
  #examples = new Map();
  // The example that the script was made of, as the story has it.
  #example = "";

  // Of the desk, and what was put into the page: examples, questions of lessons, the style of pictures.
  constructor(desk, { examples, questions, pictureStyle }) {
    this.#session = new Session(desk);
    const listParts = { root: parts.lines, scroller: parts.scroller, earlier: parts.earlier, later: parts.later };
    this.#list = new List(this.#session, listParts, () => this.#prompt.focus());
    this.#memory = new Memory(this.#session, parts, pictureStyle);
    this.#shelf = new Shelf(this.#session, parts.files, (fault) => notice.tellFault(fault),
      () => parts["file-button"].focus());
    this.#story = new Story(this.#session, parts.story);
    this.#steps = new Steps(this.#session, parts);
    this.#guess = new Guess(this.#session, parts);
    this.#share = new Share(this.#session, notice);
    const promptParts = { form: parts.prompt, field: parts.command, hint: parts.hint };
    this.#prompt = new Prompt(promptParts, new Live(this.#session), () => this.#session.state.files,
      (lines) => this.#enter(lines));
    new Help(parts.forms, parts.find, parts["none-found"]);
    this.#listExamples(examples, questions);
    this.#listen();
  }

  // Begins with the script that the tab had before it was loaded again, or with that of its link, or with none.
  start() {
    this.#show();
    const history = kept();
    if (history) this.#session.resume(history);
    else this.#followLink();
    addEventListener("hashchange", () => this.#followLink());
    addEventListener("pagehide", () => keep(this.#session.history));
    if (!matchMedia("(pointer: coarse)").matches) this.#prompt.focus();
  }

  // ---- what is shown

  #show() {
    const { lines, position, pages, name, example } = this.#session.state;
    // Memory comes first: how far it is scrolled is asked for while nothing has changed.
    this.#memory.show();
    notice.tellFault(this.#session.fault);
    if (example !== this.#example) this.#takeExample(example);
    parts["no-lines"].hidden = lines.length > 0;
    document.body.classList.toggle("blank", lines.length === 0);
    this.#shelf.show();
    this.#story.show();
    this.#steps.show();
    this.#guess.show();
    this.#prompt.usualHint = position < lines.length ? placeHint(position) : "";
    parts.name.value = name;
    parts.pages.value = pages;
    document.title = lines.length ? `${name} – Vervainfile` : "Vervainfile";
    // What stands above the script on paper.
    document.body.dataset.name = name;
    parts.progress.textContent = this.#progress();
    this.#enableButtons();
    this.#say();
    this.#settle();
  }

  // Brings what happened last into view, once all else has its height.
  #settle() {
    this.#list.show();
    this.#memory.settle();
  }

  // How far the script has run, and how many replies the last change has changed.
  #progress() {
    const { state: { lines, position }, changed } = this.#session;
    const count = [...changed].filter((line) => line < position).length;
    const told = [];
    if (lines.length) told.push(`${position} of ${counted(lines.length, "line has", "lines have")} run`);
    if (count) told.push(`${counted(count, "reply has", "replies have")} changed`);
    return told.join("; ");
  }

  #enableButtons() {
    const { lines, position } = this.#session.state;
    const isAtEnd = position === lines.length;
    enable(parts.back, position > 0);
    enable(parts.step, !isAtEnd);
    enable(parts.run, !isAtEnd);
    enable(parts.undo, this.#session.canUndo);
    enable(parts.redo, this.#session.canRedo);
    parts["save-sheet"].hidden = !this.#session.has("vf_draw");
    for (const id of NEED_LINES) enable(parts[id], lines.length > 0);
  }

  // Says the last reply, and what its command has changed, to those who listen.
  #say() {
    const { command, replies, state } = this.#session;
    if (command < 0) {
      const what = state.position ? "No command has run." : "No line has run.";
      parts.said.textContent = state.lines.length ? what : "";
      return;
    }
    const reply = replies[command].replaceAll(/\n */g, ", ").slice(0, MOST_SAID);
    const line = `Line ${command + 1}, ${state.lines[command].slice(0, MOST_SAID)}: ${reply}`;
    parts.said.textContent = [line, ...this.#memory.changes].join(". ");
  }

  // ---- scripts

  #listExamples(groups, questions) {
    for (const { label, examples } of groups) {
      const group = document.createElement("optgroup");
      group.label = label;
      group.append(...examples.map(({ name, title }) => new Option(title, name)));
      parts.examples.append(group);
      for (const example of examples) {
        this.#examples.set(example.name, { ...this.#unpacked(example), questions: questions[example.name] });
      }
    }
    parts.examples.addEventListener("change", () => this.#loadExample(parts.examples.value));
    parts.lessons.append(...[...this.#examples.values()].filter((it) => it.questions).map(lessonButton));
    for (const button of parts.empty.querySelectorAll("button")) {
      button.addEventListener("click", () => {
        this.#loadExample(button.value);
        parts.step.focus();
      });
    }
  }

  // An example with its files as bytes.
  #unpacked(example) {
    const files = example.files.map((file) => ({ name: file.name, bytes: bytesOfBase64(file.base64) }));
    return { ...example, files };
  }

  #loadExample(name) {
    const example = this.#examples.get(name);
    if (!example) return;
    const { text, pages, files } = example;
    this.#session.load({ text, pages, files, name: `${name.replace(/^.*\//, "")}.desk`, example: name });
  }

  // Takes up what is asked of the example that the script was made of, if that is a lesson.
  #takeExample(name) {
    this.#example = name;
    parts.examples.value = name;
    const example = this.#examples.get(name);
    this.#story.take(example?.questions ? example : undefined);
    this.#steps.asks = this.#story.asks;
    this.#guess.forget();
  }

  // Enters lines. One that is a link, or its end, brings the script of that.
  #enter(lines) {
    const hash = lines.length === 1 ? hashIn(lines[0]) : "";
    if (hash && this.#load(hash)) notice.tell("The script of the link is here.");
    else this.#session.enter(lines);
  }

  // Takes the files that were chosen, so that the same ones can be chosen again.
  #takeFiles(field, action) {
    const files = [...field.files];
    field.value = "";
    if (files.length) action(files);
  }

  // Opens a script of the disc, if there is one, and adds files; all that can't be taken is told at once.
  async #take(script, files) {
    const faults = script ? await this.#open(script) : [];
    faults.push(...await this.#shelf.add(files));
    if (faults.length) notice.tellFault(faults.join(" "));
    else if (script) this.#tellOddities();
  }

  // Opens a script of the disc, and gives why it can't be, or nothing.
  async #open(file) {
    if (file.size > MOST_OPENED) {
      return [`${file.name} is too long for this page. bin/vervainfile runs scripts of any length.`];
    }
    const text = textOf(await bytesOfFile(file));
    const { pages, files } = this.#session.state;
    this.#session.load({ name: file.name, text, pages, files });
    return [];
  }

  // Tells of characters by which lines are bad, with a button that mends them all.
  #tellOddities() {
    const odd = oddities(this.#session.text);
    if (!odd) return;
    const button = element("button", "fix", "Mend them");
    button.type = "button";
    button.addEventListener("click", () => {
      const { lines } = mendedLines(this.#session.state.lines);
      this.#session.change({ lines });
      parts.step.focus();
    });
    notice.tell(odd, " ", button);
  }

  #setPages() {
    const pages = Number(parts.pages.value);
    if (arePages(pages)) {
      this.#session.change({ pages });
      return;
    }
    parts.pages.value = this.#session.state.pages;
    notice.tellFault(`A pool has ${LEAST_PAGES} to ${MOST_PAGES} pages.`);
  }

  // ---- links

  // Loads what a link holds, and gives whether there was a script that can be read.
  #load(hash) {
    const linked = readHash(hash);
    if (!linked || !arePages(linked.pages) || !areFiles(linked.files)) return false;
    this.#session.load(linked);
    return true;
  }

  #followLink() {
    if (location.hash.length > 1 && !this.#load(location.hash.slice(1))) {
      notice.tellFault("The link of this page holds no script that can be read.");
    }
  }

  // ---- buttons and keys

  #listen() {
    this.#session.onChange(() => this.#show());
    this.#session.onLoad(() => this.#guess.forget());
    // A button that does nothing now isn't told of clicks.
    addEventListener("click", (event) => {
      if (event.target.closest?.("[aria-disabled=true]")) event.stopImmediatePropagation();
    }, { capture: true });
    this.#panels = new Panels([
      { panel: parts.file, button: parts["file-button"], close: parts["file-close"] },
      { panel: parts.help, button: parts["help-button"], close: parts["help-close"], first: parts.find },
    ]);
    listenToPanes(parts.panes, () => {
      this.#list.fit();
      this.#memory.fit();
      this.#settle();
    });
    for (const [id, action] of Object.entries(this.#actions)) parts[id].addEventListener("click", action);
    const onFiles = (id, action) => parts[id].addEventListener("change", () => this.#takeFiles(parts[id], action));
    onFiles("open-file", ([file]) => this.#take(file, []));
    onFiles("add-files", (files) => this.#take(undefined, files));
    parts.name.addEventListener("change", () => this.#session.change({ name: deskName(parts.name.value) }));
    parts.pages.addEventListener("change", () => this.#setPages());
    addEventListener("keydown", (event) => this.#onKey(event));
    addEventListener("resize", () => {
      this.#memory.fit();
      this.#settle();
    });
    this.#listenToDrops();
  }

  // What buttons do, by their ids.
  get #actions() {
    const session = this.#session;
    return {
      open: () => parts["open-file"].click(),
      fresh: () => session.load({ name: "script.desk", text: "" }),
      undo: () => session.undo(),
      redo: () => session.redo(),
      add: () => parts["add-files"].click(),
      save: () => this.#share.saveScript(),
      "save-sheet": () => this.#share.saveSheet(),
      print: () => print(),
      copy: () => this.#share.copyLink(),
      "copy-text": () => this.#share.copyText(),
      back: () => session.back(),
      step: () => this.#step(),
      run: () => session.moveTo(session.state.lines.length),
    };
  }

  // Runs the next command, and compares what was guessed of it.
  #step() {
    if (this.#guess.isOn) this.#guess.compare();
    else this.#session.step();
  }

  #onKey(event) {
    if (event.key === "Escape") this.#panels.close();
    const id = this.#actionOf(event);
    if (!id) return;
    event.preventDefault();
    if (id === "help") {
      this.#panels.toggle("help");
      return;
    }
    this.#commitTyped();
    this.#actions[id]();
  }

  // What a key asks for, by the id of a button or panel, if anything.
  #actionOf({ key, shiftKey, ctrlKey, metaKey, altKey }) {
    const id = { F1: "help", F8: shiftKey ? "back" : "step", F9: "run" }[key];
    if (id || altKey || !(ctrlKey || metaKey) || this.#isTyping) return id;
    return { z: shiftKey ? "redo" : "undo", y: "redo" }[key.toLowerCase()];
  }

  // Whether something is being typed, so that Ctrl Z is the field's own.
  get #isTyping() {
    const field = document.activeElement;
    if (!field?.matches("textarea, input:not([type=range], [type=checkbox], [type=radio])")) return false;
    if (this.#list.isUnedited(field)) return false;
    return field !== parts.command || field.value !== "";
  }

  // Takes what is being typed into a line, or as the script's name or its pages.
  #commitTyped() {
    this.#list.commitTyped();
    const field = document.activeElement;
    if (field !== parts.name && field !== parts.pages) return;
    field.blur();
    field.focus();
  }

  // ---- files that are dropped

  #listenToDrops() {
    addEventListener("dragover", (event) => {
      if (!event.dataTransfer.types.includes("Files")) return;
      event.preventDefault();
      document.body.classList.add("dropping");
    });
    addEventListener("dragleave", (event) => {
      if (!event.relatedTarget) document.body.classList.remove("dropping");
    });
    addEventListener("drop", (event) => {
      document.body.classList.remove("dropping");
      if (!event.dataTransfer.files.length) return;
      event.preventDefault();
      this.#takeDropped([...event.dataTransfer.files]);
    });
  }

  // Opens the script among dropped files, and adds the others.
  #takeDropped(files) {
    const script = files.find((file) => file.name.endsWith(".desk"));
    return this.#take(script, files.filter((file) => file !== script));
  }
}

// Tells of what the page itself does wrong.
function tellOwnFaults() {
  const tell = (message) => notice.tellFault(`This page has gone wrong: ${message}`);
  addEventListener("error", (event) => tell(event.message));
  addEventListener("unhandledrejection", (event) => tell(event.reason?.message));
}

// Why the page hasn't begun, in words for the user: a browser's fault, or that of a site that forbids the module.
function whyNotBegun(fault, isForbidden) {
  if (!isForbidden) return fault.message;
  return "The site that shows this page forbids it to run its module (by a content security policy). Your browser can: "
    + `save the page, and open it from disk. ${fault.message}`;
}

// Shows the page once the module is there, or else tells why it can't be.
async function begin() {
  let isForbidden = false;
  const note = () => isForbidden = true;
  document.addEventListener("securitypolicyviolation", note);
  try {
    if (!isSupported()) return;
    const data = JSON.parse(parts.data.textContent);
    const desk = new Desk(await instantiator(await unpacked(bytesOfBase64(data.module))));
    for (const id of ["desk", "tools", "foot"]) parts[id].hidden = false;
    parts.unsupported.remove();
    document.removeEventListener("securitypolicyviolation", note);
    tellOwnFaults();
    new Page(desk, data).start();
  } catch (fault) {
    isForbidden ||= /policy|unsafe-eval/i.test(fault.message);
    parts["unsupported-why"].textContent = whyNotBegun(fault, isForbidden);
    throw fault;
  }
}

await begin();
