// The story beside the picture: the title and the remark of the step, and a lesson's questions.

import { linesOf, hasReply, isRemark, titleOf } from "./script.js";
import { dueQuestions, isSameAnswer, rightAnswer } from "./lessons.js";
import { element, partsOfParagraph } from "./prose.js";

// A remark that stands more lines before a command isn't told any more.
const MOST_BACK = 1000;
// Where there is little room, a question is folded until it is asked for.
const HAS_LITTLE_ROOM = matchMedia("(max-width: 63.99rem), (max-height: 31.99rem)");

// What is told behind one line of a script, after what was told before it: the remark and its last line, the title, and
// whether a command has run since. A title behind a command begins something new.
function toldAfter({ remark, end, title, hasRun }, line, at) {
  const own = titleOf(line);
  if (own !== undefined) return { remark: hasRun ? "" : remark, end, title: own, hasRun: false };
  if (!isRemark(line)) {
    const isCommand = hasReply(line);
    return { remark, end, title: isCommand ? "" : title, hasRun: hasRun || isCommand };
  }
  const words = line.replace(/^ *# ?/, "").trim();
  return { remark: end === at - 1 ? `${remark} ${words}` : words, end: at, title, hasRun: false };
}

// The remark and the title that belong to the command at a place of a script.
export function tale(lines, command) {
  let told = { remark: "", end: -2, title: "", hasRun: false };
  for (let at = Math.max(0, command - MOST_BACK); at < command; at++) told = toldAfter(told, lines[at], at);
  return { remark: told.remark, title: told.title };
}

// The form of one question: its words, a field for each answer, and what is told of them.
class Question {
  root = element("details", "question");
  #question;
  #ask;
  #onTold;
  #fields;
  #told = element("p", "told");
  #summary = element("summary");
  #number;

  // Of a question, its number, a function that gives the right answer of a field, and one that is told of an answer.
  constructor(question, number, ask, onTold) {
    this.#question = question;
    this.#number = number;
    this.#ask = ask;
    this.#onTold = onTold;
    this.#fields = question.fields.map(({ label }) => this.#field(label));
    this.#told.setAttribute("role", "status");
    this.#summary.textContent = `Question ${number}`;
    this.root.append(this.#summary, this.#form());
  }

  #field(label) {
    const root = element("label", "", label);
    const input = element("input", "answer");
    Object.assign(input, { spellcheck: false, autocomplete: "off", autocapitalize: "off" });
    root.append(input);
    return { root, input };
  }

  #form() {
    const form = element("form");
    const asks = element("p", "asks");
    asks.append(...partsOfParagraph(this.#question.asks));
    const row = element("div", "answers");
    const show = element("button", "plain", "Show answer");
    show.type = "button";
    row.append(...this.#fields.map((it) => it.root));
    if (this.#fields.length) row.append(element("button", "check", "Check"));
    row.append(show);
    form.append(asks, row, this.#told);
    form.addEventListener("submit", (event) => {
      event.preventDefault();
      this.#check();
    });
    show.addEventListener("click", () => this.#tell("", this.#question.answer));
    return form;
  }

  // Compares what was typed with the module's replies.
  #check() {
    const right = this.#question.fields.map((field, at) =>
      isSameAnswer(this.#fields[at].input.value, this.#ask(field)));
    right.forEach((isRight, at) => this.#fields[at].input.setAttribute("aria-invalid", String(!isRight)));
    if (right.every(Boolean)) {
      this.#summary.textContent = `Question ${this.#number} ✓`;
      this.#tell("right", `Right. ${this.#question.answer}`);
      this.#onTold(this.#question);
      return;
    }
    const wrong = this.#question.fields[right.indexOf(false)].label;
    const which = right.length > 1 ? `: ${wrong} is another one` : "";
    this.#tell("wrong", `Not so${which}. Look at the picture, and try again.`);
  }

  #tell(kind, text) {
    this.#told.className = `told ${kind}`.trim();
    this.#told.replaceChildren(...partsOfParagraph(text));
    this.#told.scrollIntoView({ block: "nearest" });
  }
}

export class Story {
  #session;
  #root;
  #lesson;
  #head = element("p", "lesson");
  #title = element("h3", "title");
  #remark = element("p", "tale");
  #asked = element("div");
  #forms = new Map();
  #answered = new Set();
  #due = [];

  // Of the session and the element in which it stands.
  constructor(session, root) {
    this.#session = session;
    this.#root = root;
    root.append(this.#head, this.#title, this.#remark, this.#asked);
  }

  // Takes up a lesson, or none: its title and questions, and its script with pages and files.
  take(lesson) {
    this.#lesson = lesson && { ...lesson, lines: linesOf(lesson.text).lines };
    this.#due = [];
    this.#asked.replaceChildren();
    this.#root.scrollTop = 0;
  }

  // The lines behind which something is asked.
  get asks() {
    return this.#lesson?.questions.map(({ after }) => after) ?? [];
  }

  // The place of the first command, or the end of a script without one.
  get #firstCommand() {
    const { lines } = this.#session.state;
    const first = lines.findIndex((line) => hasReply(line));
    return first < 0 ? lines.length : first;
  }

  show() {
    const { lines } = this.#session.state;
    const { command } = this.#session;
    const { remark, title } = tale(lines, command < 0 ? this.#firstCommand : command);
    const isOther = this.#title.textContent !== title || this.#remark.textContent !== remark;
    this.#title.textContent = title;
    this.#remark.textContent = remark;
    this.#showLesson();
    for (const part of [this.#head, this.#title, this.#remark]) part.hidden = !part.textContent;
    this.#root.hidden = !remark && !title && !this.#lesson;
    if (isOther) this.#root.scrollTop = 0;
  }

  #showLesson() {
    if (!this.#lesson) {
      this.#head.textContent = "";
      return;
    }
    const { title, questions, lines } = this.#lesson;
    const checked = questions.filter(({ fields }) => fields.length);
    const count = checked.filter((it) => this.#answered.has(it)).length;
    const isOther = this.#session.state.lines.join("\n") !== lines.join("\n");
    const score = element("span", "score", `${count} of ${checked.length} answered`);
    const changed = isOther ? ", changed: questions are about it as it was" : "";
    this.#head.replaceChildren(`Lesson ${title.split(".")[0]}${changed}`, score);
    this.#ask(dueQuestions(questions, this.#session.state.position));
  }

  // Shows the questions that are due, of which the first is open.
  #ask(due) {
    if (due.length === this.#due.length && due.every((it, at) => it === this.#due[at])) return;
    this.#due = due;
    const { questions } = this.#lesson;
    this.#asked.replaceChildren(...due.map((it) => this.#formOf(it, questions.indexOf(it) + 1).root));
    const [first] = this.#asked.children;
    if (first && !HAS_LITTLE_ROOM.matches) first.open = true;
  }

  #formOf(question, number) {
    const lesson = this.#lesson;
    const made = this.#forms.get(question) ?? new Question(question, number,
      (field) => rightAnswer(field, lesson, this.#session), () => {
        this.#answered.add(question);
        this.#showLesson();
      });
    this.#forms.set(question, made);
    return made;
  }
}
