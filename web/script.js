// A script as lines, and what its format says of them: which have a reply, and which replies are whose.

import { bytesOf } from "./bytes.js";

// The bytes of a line at most, and the bytes of a character at most.
const LINE_BYTES = 1024;
const CHARACTER_BYTES = 4;
const SKIPPED = /^ *(?:#|$)/;
const REMARK = /^ *#/;
const MARK = /^ *#picture(?: |$)/;

// Whether a line is skipped as a remark.
export function isRemark(line) {
  return REMARK.test(line);
}

// The title that a line gives to the picture of the next command, where it is such a mark.
export function titleOf(line) {
  return MARK.test(line) ? line.replace(MARK, "").trim() : undefined;
}

// The lines of a script, and whether its last one has no line feed: such a line doesn't run.
export function linesOf(text) {
  const lines = text.split("\n");
  const isCut = lines.at(-1) !== "";
  if (!isCut) lines.pop();
  return { lines, isCut };
}

// The text of a script.
export function textOfLines(lines, isCut) {
  return lines.length ? lines.join("\n") + (isCut ? "" : "\n") : "";
}

// Whether a line has more bytes than a line may have.
function isTooLong(line) {
  return line.length * CHARACTER_BYTES > LINE_BYTES && bytesOf(line).length > LINE_BYTES;
}

// Whether a whole line has a reply: it is no remark and has words, or it is too long.
export function hasReply(line) {
  return !SKIPPED.test(line) || isTooLong(line);
}

// Whether each line of a script has a reply.
function answered({ lines, isCut }) {
  return lines.map((line, index) => hasReply(line) || (isCut && index === lines.length - 1));
}

// The replies in a run's text, each with the lines that belong to it.
function repliesOf(text) {
  return text === "" ? [] : text.slice(0, -1).split(/\n(?! {2})/);
}

// The last reply of a run's text.
export function lastReplyOf(text) {
  return repliesOf(text).at(-1) ?? "";
}

// For each line of a script its reply in a run's text, or null where it has none; nothing where these don't fit.
export function repliesByLine(script, text) {
  const replies = repliesOf(text);
  let count = 0;
  const byLine = answered(script).map((has) => has ? replies[count++] : null);
  return count === replies.length && !byLine.includes(undefined) ? byLine : undefined;
}

// How a reply went: ok, refused or bad, or an empty text where there is none.
export function outcomeOf(reply) {
  return reply === null ? "" : reply.split(/[ \n]/, 1)[0];
}

// How many lines have run when the command behind a position has: the command's own and all before it.
export function positionAfterStep(replies, position) {
  const next = replies.findIndex((reply, index) => index >= position && reply !== null);
  return next < 0 ? replies.length : next + 1;
}

// The place of the last line before a position that has a reply, or -1.
export function commandBefore(replies, position) {
  return replies.findLastIndex((reply, index) => index < position && reply !== null);
}

// How many lines had run before the last command did.
export function positionBeforeStep(replies, position) {
  return commandBefore(replies, commandBefore(replies, position)) + 1;
}

// Whether a line that is skipped stands just before a command, and whether one of such lines there is a mark.
function standsBefore(lines, command) {
  const last = lines.findLastIndex((line, index) => index < command && hasReply(line));
  return { isSkipped: last < command - 1, isMarked: lines.slice(last + 1, command).some((line) => MARK.test(line)) };
}

// How many lines the text has in which a command alone is marked that its script doesn't have.
export function addedByMark({ lines }, command) {
  return standsBefore(lines, command).isSkipped ? 0 : 1;
}

// The text of a script's front up to a command, of which the command alone is marked for a picture: other marks become
// empty remarks. The line before a command that has no mark becomes one, if it is skipped; else a line is put in.
export function markedText({ lines, isCut }, command) {
  const { isSkipped, isMarked } = standsBefore(lines, command);
  const last = isMarked ? lines.findLastIndex((line, index) => index < command && hasReply(line)) : command;
  const kept = lines.slice(0, command)
    .map((line, index) => index < last && MARK.test(line) && !hasReply(line) ? "#" : line);
  if (!isMarked) kept.splice(isSkipped ? command - 1 : command, 1, "#picture");
  return textOfLines([...kept, lines[command]], isCut && command === lines.length - 1);
}
