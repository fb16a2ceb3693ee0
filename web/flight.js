// Bytes on their way: at a step that copies some of a document into a buffer, or of a buffer into a document, these fly
// from card to card. Which ones, from where and to where stands in the module's own words and on its cards.

import { LESS_MOTION, MOTION, layerOver } from "./movement.js";

const MOST_FLYERS = 16;
const FLIGHT = { duration: 600, easing: MOTION.easing, fill: "both" };
// So long after the one before it a byte begins, and so wide it is.
const APART = 40;
const WIDTH = 16;
const INTO_BUFFER = /^([1-9]\d*) bytes? into the buffer of (.+) at (&[0-9A-F]+)$/;
const TRANSMITS = /^(.+) sends RAMTransmit \d+ to .+$/;
const INTO_DOCUMENT = /^Flex block (\d+) had (\d+) bytes?, now (\d+)$/;
const TAKES = /^(.+) takes RAMTransmit \d+$/;
const PAIRS = /^(?:[0-9a-f]{2})+/;

// The parts of the first text of some that has a form.
const partsOfFirst = (texts, form) => texts.map((text) => form.exec(text)?.slice(1)).find(Boolean) ?? [];

// The cards of the slots in a picture of memory: whose each is, its name, the transfers that use it, the bytes that it
// shows, and where these stand in the picture, in pixels from its left and upper edge.
export function cardsIn(figure) {
  const corner = figure.getBoundingClientRect();
  return [...figure.querySelectorAll(".memory svg .first")].map((first) => {
    const words = first.nextElementSibling;
    const shown = words?.nextElementSibling;
    const [pairs = ""] = shown?.matches(".line") ? PAIRS.exec(shown.textContent) ?? [] : [];
    const { left, top, bottom } = (pairs ? shown : words ?? first).getBoundingClientRect();
    return {
      slot: first.parentNode.querySelector("title").textContent.replace("The slot of ", ""),
      name: first.textContent,
      transfers: words?.textContent.split(", ").slice(1) ?? [],
      bytes: (pairs.match(/../g) ?? []).map((pair) => parseInt(pair, 16)),
      place: { left: left - corner.left, top: top - corner.top, bottom: bottom - corner.top },
    };
  });
}

// The number of the transfer that uses a card in a direction; and whether such a one is of that number.
const transferOf = (card, way) => partsOfFirst(card?.transfers ?? [], new RegExp(`^${way} (\\d+)$`))[0];
const isUsed = (way, transfer) => (card) => transfer !== undefined && transferOf(card, way) === transfer;

// From which card to which one which bytes go, where a buffer gets some from the document of a task that says that it
// sends them: a forged message brings none. Behind the command no transfer may use the document any more: it is one of
// the cards before.
function wayIntoBuffer(before, cards, changes) {
  const [count, slot, address] = partsOfFirst(changes, INTO_BUFFER);
  const [sender] = partsOfFirst(changes, TRANSMITS);
  const to = cards.find((card) => card.slot === slot && card.name === `buffer ${address}`);
  const from = before.filter((card) => card.slot === sender).find(isUsed("out", transferOf(to, "in")));
  return from && to && { from, to, bytes: to.bytes.slice(0, count) };
}

// The same where a document gets some. The buffer may be gone behind the command: it is one of the cards before.
function wayIntoDocument(before, cards, changes) {
  const [slot] = partsOfFirst(changes, TAKES);
  const [anchor, old, size] = partsOfFirst(changes, INTO_DOCUMENT);
  const own = before.filter((card) => card.slot === slot);
  const isDocument = (card) => card.slot === slot && card.name.startsWith(`anchor ${anchor} `);
  const buffers = own.filter((card) => card.name.startsWith("buffer "));
  const from = buffers.find(isUsed("in", transferOf(own.find(isDocument), "in")));
  const to = cards.find(isDocument);
  return from && to && { from, to, bytes: from.bytes.slice(0, size - old) };
}

// Whether a command has copied bytes, by what it has changed in words.
export const copiesBytes = (changes) => changes.some((text) => INTO_BUFFER.test(text)
  || INTO_DOCUMENT.test(text) && changes.some((other) => TAKES.test(other)));

// A byte that is to fly.
function flyerOf(byte) {
  const flyer = document.createElement("span");
  flyer.className = "flyer";
  flyer.textContent = byte > 32 && byte < 127 ? String.fromCharCode(byte) : "·";
  return flyer;
}

// Lets the bytes that a command has copied fly over a figure, from the cards that it had before to those that it has.
// Gives where the bytes of both cards stand in the picture, or nothing.
export function flyBytes(figure, before, changes) {
  const cards = cardsIn(figure);
  const way = wayIntoBuffer(before, cards, changes) ?? wayIntoDocument(before, cards, changes);
  if (!way?.bytes.length) return [];
  const places = [way.from.place, way.to.place];
  if (LESS_MOTION.matches) return places;
  const flyers = way.bytes.slice(0, MOST_FLYERS).map(flyerOf);
  layerOver(figure, flyers, (flyer) => {
    const at = flyers.indexOf(flyer);
    const path = places.map(({ left, top }) => ({ transform: `translate(${left + at * WIDTH}px, ${top}px)` }));
    return flyer.animate(path, { ...FLIGHT, delay: at * APART });
  });
  return places;
}
