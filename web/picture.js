// Pictures of memory and of messages: the last figure of a sheet, each in a tree of its own, with the sheet's style.

import { shownText } from "./bytes.js";
import { cardsIn, copiesBytes, flyBytes } from "./flight.js";
import { LESS_MOTION, moveParts, partsIn } from "./movement.js";
import { element } from "./prose.js";

// The style of a sheet; a browser would refuse one that it finds in a page.
const STYLE = /<style>([^]*?)<\/style>/;

// Gives the messages at a step the number of its line in the script, where a sheet was made of lines of which so many
// were put in before it.
function renumber(aside, line, added) {
  if (!aside || !added) return;
  const drawn = String(line + added);
  const inWords = new RegExp(`\\bline ${drawn}\\b`, "g");
  for (const beat of aside.querySelectorAll(".beat")) if (beat.textContent === drawn) beat.textContent = line;
  for (const said of aside.querySelectorAll("desc")) {
    said.textContent = said.textContent.replace(inWords, `line ${line}`);
  }
}

// The last step of a sheet, by the number of its line: the sheet's style, what the command has changed in words, the
// figures of memory and of the messages, and how figures are read.
export function lastStepOf(sheet, line, added) {
  const text = shownText(sheet);
  const page = new DOMParser().parseFromString(text.replace(STYLE, ""), "text/html");
  const step = [...page.querySelectorAll("main section")].at(-1);
  const defs = page.querySelector(".defs");
  const aside = step?.querySelector(":scope > aside");
  renumber(aside, line, added);
  return {
    style: STYLE.exec(text)?.[1] ?? "",
    changes: [...step?.querySelectorAll(".change") ?? []].map((change) => change.textContent),
    memory: [defs, step?.querySelector(":scope > .memory")],
    messages: aside ? [defs, aside] : [],
    legend: [page.querySelector("header > p"), page.querySelector(".key")],
  };
}

// Makes links that lead out of the figure plain words: the other steps of the sheet aren't shown.
function unlink(tree) {
  for (const link of tree.querySelectorAll("a[href]")) {
    const target = link.getAttribute("href");
    if (!target.startsWith("#") || !tree.getElementById(target.slice(1))) link.removeAttribute("href");
  }
}

// Copies of elements of a sheet, without those that it doesn't have.
function copies(elements) {
  return elements.filter(Boolean).map((element) => document.importNode(element, true));
}

// How far down the names above a chart reach, and what lies behind the last page of a pool, in a picture's own units.
const HEADS = 24;
const EDGE = 2;

// What has changed of slots and of the module area; and how much around it is to be in sight, and how much above the
// bytes on a card, in pixels.
const CHANGED = ".memory svg .fresh:not(.cell)";
const MARGIN = 8;
const ABOVE_BYTES = 40;

// From where to where places reach, with what is above them.
function reachOf(places, above) {
  return [Math.min(...places.map((it) => it.top)) - above, Math.max(...places.map((it) => it.bottom)) + MARGIN];
}

// The names above a chart once more, on a plate as wide as it: they stay in sight where it is scrolled.
function headsOf(chart) {
  const heads = chart.cloneNode(false);
  const frame = document.createElement("div");
  const plate = document.createElementNS(chart.namespaceURI, "rect");
  const places = { class: "plate", width: "100%", height: HEADS };
  for (const [name, value] of Object.entries(places)) plate.setAttribute(name, value);
  heads.setAttribute("viewBox", `0 0 ${chart.viewBox.baseVal.width} ${HEADS}`);
  heads.append(plate, ...[...chart.querySelectorAll(".who")].map((name) => name.cloneNode(true)));
  Object.assign(frame, { className: "heads", ariaHidden: "true" });
  frame.append(heads);
  return frame;
}

// What stands before a pool, in words.
function wordsOfPool(pool) {
  const words = document.createElement("p");
  const [name, free] = [".side", ".small"].map((it) => pool.querySelector(it)?.textContent ?? "");
  words.append(element("b", "", name), ` ${free}`);
  Object.assign(words, { className: "free", ariaHidden: "true", hidden: true });
  return words;
}

// A frame around elements, which can be scrolled by keys.
function frameOf(label, elements) {
  const frame = document.createElement("div");
  Object.assign(frame, { className: "wide", tabIndex: 0, role: "group", ariaLabel: label });
  frame.append(...elements);
  return frame;
}

export class Picture {
  #tree;
  #figure = document.createElement("div");
  #sheetStyle = new CSSStyleSheet();
  #styleText;
  // Whether what has changed is to be brought into view, once that can be done; where the cards stand between which
  // bytes go, if some do; and whether the figure may be seen gliding.
  #isDue = false;
  #ways = [];
  #glides = false;
  // Whether the pool is to be scrolled to its last page: until it is seen, unless it was scrolled elsewhere before.
  #poolsEndIsDue = false;

  // Of the element in which it stands, and what is added to the sheet's style.
  constructor(host, addedStyle) {
    const added = new CSSStyleSheet();
    added.replaceSync(addedStyle);
    this.#tree = host.attachShadow({ mode: "open" });
    this.#tree.adoptedStyleSheets = [this.#sheetStyle, added];
    this.#figure.className = "figure";
    this.#tree.append(this.#figure);
  }

  // Shows parts of a sheet, and what is said of how they are read, with the sheet's style. Where they are of the step
  // beside the one that was shown, blocks move; where they are of the step behind it, so do bytes, by its changes.
  show(style, parts, legend, isBeside = false, changes = []) {
    if (style !== this.#styleText) this.#restyle(style, legend);
    const before = isBeside ? partsIn(this.#figure) : undefined;
    const cards = copiesBytes(changes) ? cardsIn(this.#figure) : undefined;
    const frames = this.#frames;
    const scrolled = frames.map((frame) => frame.scrollLeft);
    const focused = frames.findIndex((frame) => frame.contains(this.#tree.activeElement));
    this.#figure.replaceChildren(...copies(parts));
    unlink(this.#tree);
    const memory = this.#figure.querySelector(".memory");
    if (memory) this.#frame(memory, scrolled);
    this.#frames[focused]?.focus({ preventScroll: true });
    const chart = this.#figure.querySelector("aside > svg");
    if (chart) this.#figure.prepend(headsOf(chart));
    if (before) moveParts(this.#figure, before);
    this.#ways = cards ? flyBytes(this.#figure, cards, changes) : [];
    [this.#glides, this.#isDue] = [isBeside, true];
  }

  // From where to where something has changed in the figure, or nothing.
  get #changed() {
    const { top: above } = this.#figure.getBoundingClientRect();
    const places = [...this.#figure.querySelectorAll(CHANGED)].map((it) => it.getBoundingClientRect())
      .map(({ top, bottom }) => ({ top: top - above, bottom: bottom - above }));
    return places.length ? reachOf(places, MARGIN) : undefined;
  }

  // Shows the pool's end, and brings what has changed into the view of an element in which the figure is scrolled, once
  // all of the page is as high as it gets.
  settle(scroller) {
    if (this.#showPoolsEnd()) this.#poolsEndIsDue = false;
    this.#bringIntoView(scroller);
  }

  // Where there isn't room for all that has changed, its beginning is brought into view, or the card to which bytes go.
  // What is in view stays where it is.
  #bringIntoView(scroller) {
    if (!this.#isDue || !scroller.clientHeight) return;
    this.#isDue = false;
    const reach = this.#ways.length ? reachOf(this.#ways, ABOVE_BYTES) : this.#changed;
    if (!reach) return;
    const above = this.#figure.getBoundingClientRect().top - scroller.getBoundingClientRect().top + scroller.scrollTop;
    const [first, last] = reach.map((it) => it + above);
    const { clientHeight: room, scrollTop } = scroller;
    if (first >= scrollTop && last <= scrollTop + room) return;
    const isWhole = last - first <= room;
    const top = (isWhole ? first < scrollTop : !this.#ways.length) ? first : last - room;
    scroller.scrollTo({ top, behavior: this.#glides && !LESS_MOTION.matches ? "smooth" : "auto" });
  }

  get #frames() {
    return [...this.#figure.querySelectorAll(".wide")];
  }

  // Shows nothing any more.
  clear() {
    this.#figure.replaceChildren();
  }

  // Puts the pool and all below it into frames, each of which scrolls by itself where it is too wide.
  #frame(memory, scrolled) {
    const [pool, ...others] = memory.children;
    const frames = [frameOf("Pool of pages", [pool]), frameOf("Slots and module area", others)];
    const words = wordsOfPool(pool);
    frames[0].classList.add("pool");
    memory.replaceChildren(words, ...frames);
    frames.forEach((frame, at) => {
      if (scrolled[at]) frame.scrollLeft = scrolled[at];
    });
    this.#poolsEndIsDue = !scrolled[0];
    this.#showPoolsEnd();
  }

  // Where the pool is seen, scrolls it to its last page if that is due. Where what stands before the pool is out of
  // sight then, its words are seen above. Gives whether the pool is seen.
  #showPoolsEnd() {
    const frame = this.#figure.querySelector(".pool");
    const lastCells = [...this.#figure.querySelectorAll("#grid .cells")].at(-1);
    if (!frame?.clientWidth || !lastCells) return false;
    const [pool] = frame.children;
    const { width } = pool.getBoundingClientRect();
    const end = (lastCells.x.baseVal.value + lastCells.width.baseVal.value + EDGE) / pool.viewBox.baseVal.width;
    this.#figure.querySelector(".free").hidden = end * width <= frame.clientWidth;
    if (this.#poolsEndIsDue) frame.scrollLeft = (end - 1) * width;
    return true;
  }

  // Takes the sheet's style over, and how figures are read. What the style says of a whole page holds for the picture.
  #restyle(style, legend) {
    this.#styleText = style;
    this.#sheetStyle.replaceSync(style.replaceAll(":root", ":host"));
    this.#tree.querySelector("details")?.remove();
    if (!legend.length) return;
    const summary = document.createElement("summary");
    const details = document.createElement("details");
    summary.textContent = "How figures are read";
    details.append(summary, ...copies(legend));
    this.#tree.append(details);
  }
}
