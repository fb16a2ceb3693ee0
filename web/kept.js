// What a tab keeps for when it is loaded again: the script, and what Undo and Redo know. Nothing is kept elsewhere.

import { base64Of, bytesOfBase64 } from "./bytes.js";

const KEY = "session";
// The characters that are kept at most.
const MOST_KEPT = 2_000_000;
// About so many characters stand around a line, and so many for three bytes of a file.
const AROUND_LINE = 3;
const BASE64 = { characters: 4, bytes: 3 };
// A tab that is loaded again, or that is gone back to.
const COMES_AGAIN = ["reload", "back_forward"];

// About how many characters it takes to keep lines.
function lengthOf(lines) {
  return lines.reduce((sum, line) => sum + line.length + AROUND_LINE, 0);
}

// Those of some states that are nearest to the present, at the end, as far as there is room; and the room that is left.
function nearestStates(states, room) {
  let first = states.length;
  let left = room;
  while (first > 0 && lengthOf(states[first - 1].lines) <= left) {
    first--;
    left -= lengthOf(states[first].lines);
  }
  return { states: states.slice(first), left };
}

// States as they are kept: each file stands once, and states have its place.
function packed({ past, state, ahead }) {
  const files = [...new Set([...past, state, ...ahead].flatMap((it) => it.files))];
  const pack = (it) => ({ ...it, files: it.files.map((file) => files.indexOf(file)) });
  return {
    past: past.map(pack), state: pack(state), ahead: ahead.map(pack),
    files: files.map(({ name, bytes }) => ({ name, base64: base64Of(bytes) })),
  };
}

// The text under which a history is kept: with as many changes as there is room for, or nothing where the script and
// its files alone are too long.
export function textOfHistory({ past, state, ahead }) {
  const ofFiles = state.files.reduce((sum, { bytes }) => sum + bytes.length, 0) * BASE64.characters / BASE64.bytes;
  const room = MOST_KEPT - ofFiles - lengthOf(state.lines);
  if (room < 0) return "";
  const before = nearestStates(past, room);
  const after = nearestStates(ahead, before.left);
  const whole = JSON.stringify(packed({ past: before.states, state, ahead: after.states }));
  const text = whole.length <= MOST_KEPT ? whole : JSON.stringify(packed({ past: [], state, ahead: [] }));
  return text.length <= MOST_KEPT ? text : "";
}

// The history that a text keeps, or nothing where there is none.
export function historyOfText(text) {
  if (!text) return undefined;
  const kept = JSON.parse(text);
  const files = kept.files.map(({ name, base64 }) => ({ name, bytes: bytesOfBase64(base64) }));
  const unpack = (it) => ({ ...it, files: it.files.map((at) => files[at]) });
  return { past: kept.past.map(unpack), state: unpack(kept.state), ahead: kept.ahead.map(unpack) };
}

// Keeps a history in the tab, as long as that is allowed.
export function keep(history) {
  try {
    sessionStorage.setItem(KEY, textOfHistory(history));
  } catch (fault) {
    console.info(fault.message);
  }
}

// The history that the tab has kept, where it was loaded again.
export function kept() {
  try {
    const [{ type }] = performance.getEntriesByType("navigation");
    return COMES_AGAIN.includes(type) ? historyOfText(sessionStorage.getItem(KEY)) : undefined;
  } catch {
    return undefined;
  }
}
