// Movement between the pictures of two neighbouring steps: a block that both have goes from its old place to the new
// one, and one that is new comes in. The picture is the module's at once: only how it is shown changes by degrees.

export const MOTION = { duration: 420, easing: "cubic-bezier(.3, 0, .2, 1)" };
// Arrows of slides, and what is new among messages, are seen once all blocks have their places.
const ARROWS = ".casing, .ghost, .slide, .leads, .msg.now, .mname.now";
const LATE = { duration: 150, delay: MOTION.duration, fill: "backwards" };
const UNSEEN = [{ opacity: 0 }, { opacity: 1 }];
const GONE = [{ opacity: 1 }, { opacity: 0 }];
// What moves, by the beginning of its title.
const MOVABLE = /^(?:flex block \d+|message \d+|(?:used|hole) &[0-9A-F]+)/;
export const LESS_MOTION = matchMedia("(prefers-reduced-motion: reduce)");

const numberOf = (element, name) => Number(element.getAttribute(name));
const inUnits = (place) => Object.fromEntries(Object.entries(place).map(([name, value]) => [name, `${value}px`]));

// Adds the parts of one slot, or of the module area, that may move: each by its owner, its name and, where it stands in
// several rows, a number. A row is known by its address, as it stands elsewhere where a slot has more pages.
function addParts(parts, svg) {
  const owner = svg.querySelector("title").textContent;
  const rows = new Map();
  let address = "";
  for (const element of svg.children) {
    if (element.matches(".addr")) address = element.textContent;
    if (element.matches(".row")) rows.set(address, numberOf(element, "y"));
    const [name] = MOVABLE.exec(element.querySelector("title")?.textContent ?? "") ?? [];
    if (!name) continue;
    let piece = 0;
    while (parts.has(`${owner}, ${name}, ${piece}`)) piece++;
    const place = { x: numberOf(element, "x"), y: numberOf(element, "y"), width: numberOf(element, "width") };
    const label = element.nextElementSibling?.matches(".lab") ? element.nextElementSibling : undefined;
    parts.set(`${owner}, ${name}, ${piece}`, { owner, element, label, address, rows, place });
  }
}

// Adds the parts of a lens: each has its name, and all that stands in it moves with it.
function addGroups(parts, svg) {
  const owner = svg.querySelector("title").textContent;
  for (const group of svg.querySelectorAll(":scope > [data-key]")) {
    const rect = group.querySelector("rect");
    const place = { x: numberOf(rect, "x"), y: numberOf(rect, "y"), width: numberOf(rect, "width") };
    parts.set(`${owner}, ${group.dataset.key}`, { owner, group, rect, place });
  }
}

// The parts of a picture of memory that may move.
export function partsIn(figure) {
  const parts = new Map();
  for (const svg of figure.querySelectorAll(".memory svg")) {
    addParts(parts, svg);
    addGroups(parts, svg);
  }
  return parts;
}

// Moves a part from the place that it had, as far as the row is still drawn in which that was.
function move({ element, label, rows, place }, before) {
  const y = rows.get(before.address);
  if (y === undefined) return;
  const old = { ...before.place, y };
  if (["x", "y", "width"].every((name) => old[name] === place[name])) return;
  element.animate([inUnits(old), inUnits(place)], MOTION);
  const right = old.x + old.width / 2 - place.x - place.width / 2;
  label?.animate([{ transform: `translate(${right}px, ${y - place.y}px)` }, { transform: "none" }], MOTION);
}

// Moves a part of a lens from the place that it had.
function moveGroup({ group, rect, place }, { place: old }) {
  const [right, down] = [old.x - place.x, old.y - place.y];
  if (right || down) group.animate([{ transform: `translate(${right}px, ${down}px)` }, { transform: "none" }], MOTION);
  if (old.width !== place.width) rect.animate([{ width: `${old.width}px` }, { width: `${place.width}px` }], MOTION);
}

// A layer over a figure, which isn't told to those who listen. It goes once all that moves on it has come to its end.
export function layerOver(figure, elements, animate) {
  const layer = document.createElement("div");
  Object.assign(layer, { className: "flying", ariaHidden: "true" });
  layer.append(...elements);
  figure.append(layer);
  Promise.allSettled(elements.map((it) => animate(it).finished)).then(() => layer.remove());
}

// The picture of a slot, or of the module area.
function pictureOf(figure, owner) {
  return [...figure.querySelectorAll(".memory svg")].find((it) => it.querySelector("title").textContent === owner);
}

// What is gone of a picture upon a plate that lies over it.
function plateOver(figure, svg, ghost) {
  const plate = svg.cloneNode(false);
  const [corner, seen] = [figure, svg].map((it) => it.getBoundingClientRect());
  plate.append(ghost);
  const over = inUnits({ left: seen.left - corner.left, top: seen.top - corner.top, width: seen.width });
  Object.assign(plate.style, { position: "absolute", ...over });
  return plate;
}

// A part of a lens that is gone, as it was.
function ghostOfGroup(figure, { owner, group }) {
  const svg = pictureOf(figure, owner);
  return svg ? [plateOver(figure, svg, group.cloneNode(true))] : [];
}

// A part that is gone, as it was, where its row is now.
function ghostOf(figure, { owner, element, address, place: { x, width } }) {
  const svg = pictureOf(figure, owner);
  const label = [...svg?.querySelectorAll(".addr") ?? []].find((it) => it.textContent === address);
  const row = label && [...svg.querySelectorAll(".row")].find((it) => numberOf(it, "y") < numberOf(label, "y")
    && numberOf(label, "y") < numberOf(it, "y") + numberOf(it, "height"));
  if (!row) return [];
  const ghost = element.cloneNode(false);
  for (const [name, value] of Object.entries({ x, y: numberOf(row, "y"), width })) ghost.setAttribute(name, value);
  ghost.classList.remove("fresh");
  return [plateOver(figure, svg, ghost)];
}

// Moves the parts of a picture from where those of another one were, and lets fade those that are gone, unless less
// motion is asked for.
export function moveParts(figure, before) {
  if (LESS_MOTION.matches) return;
  const parts = partsIn(figure);
  const gone = [...before].filter(([key]) => !parts.has(key))
    .flatMap(([, part]) => (part.group ? ghostOfGroup : ghostOf)(figure, part));
  if (gone.length) layerOver(figure, gone, (ghost) => ghost.animate(GONE, MOTION));
  for (const [key, part] of parts) {
    const old = before.get(key);
    if (old) (part.group ? moveGroup : move)(part, old);
    else [part.element, part.label, part.group].forEach((it) => it?.animate(UNSEEN, MOTION));
  }
  for (const arrow of figure.querySelectorAll(ARROWS)) arrow.animate(UNSEEN, LATE);
}
