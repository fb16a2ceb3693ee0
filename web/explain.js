// What a line that has run did, why it was refused, or what is wrong with it; and how a near miss is mended.

import { bytesOf, textOf } from "./bytes.js";
import { mended } from "./mend.js";
import { SENTENCES } from "./sentences.js";
import { BUSY_SAVE, FORMS, OTHER_WORDS, OUTCOMES, REFUSALS, isKind, sentence } from "./words.js";

const COMMANDS = [...new Set(FORMS.map(({ words }) => words[0]))];
const KINDS_OF_COMMANDS = Object.values(SENTENCES.commands);
const FAULTS = SENTENCES.faults;
// Kinds of words that are numbers.
const NUMBERS = ["Anchor", "Buffer", "Size", "Offset", "Amount", "AreaNumber", "MadeNumber", "MostPages", "Id",
  "Handle", "AnsweredRef", "ActionNumber"];
// The word of a form that a refusal is about, by the function that finds it. What the desk alone has, as how many pages
// are free, which transfer uses a block or how long a block is, the program tells and the page doesn't.
const ABOUT = { name_in: "NAME", recipient_in: "TO", loaded_file: "FILE", anchor_in: "A", area_in: "K",
  address_in: "ADDR" };
// So many letters of a short word, or of a longer one, may be other than those of the command that was meant.
const SHORT_WORD = 4;
const MOST_OTHER = { short: 1, long: 2 };
const HEX_BASE = 16;
const DIGITS_OF_WORD = 8;
const CARRIAGE_RETURN = 13;
const TAB = 9;
// The bytes that a line of words may have.
const FIRST_OF_WORDS = 32;
const LAST_OF_WORDS = 126;
// The fewest digits that are surely meant as an address.
const ADDRESS = /^(?:0x|\$)?([0-9a-f]{3,8})$/i;
const OTHER_NUMBER = /^(?:0x|&|\$)([0-9a-f]{1,8})$/i;
const PARTED_NUMBER = /^-?\d{1,3}(?:[,_]\d{3})+$/;

const wordsOfLine = (line) => line.split(/ +/).filter(Boolean);

// How many letters of one word have to be taken out, put in or changed to make another of it.
function distance(from, to) {
  let row = Array.from({ length: to.length + 1 }, (_, at) => at);
  [...from].forEach((letter, index) => {
    row = row.reduce((next, above, at) => {
      const isOther = letter === to[at - 1] ? 0 : 1;
      next.push(at ? Math.min(above + 1, next[at - 1] + 1, row[at - 1] + isOther) : index + 1);
      return next;
    }, []);
  });
  return row[to.length];
}

// The one of some words that a word was meant to be, if that is clear.
function nearestWord(word, allowed) {
  const low = word.toLowerCase();
  const [best] = allowed.map((it) => ({ it, far: distance(low, it) })).sort((one, other) => one.far - other.far);
  const most = word.length > SHORT_WORD ? MOST_OTHER.long : MOST_OTHER.short;
  return best && best.far <= most ? best.it : undefined;
}

// The form that a line has, if any.
function formOf(line) {
  const words = wordsOfLine(line);
  return FORMS.find((form) => form.words.length === words.length
    && form.words.every((word, at) => isKind(word) || word === words[at]));
}

// The kind of command that the first words of a line name; of two the one that more of them name.
function kindOf(words) {
  const named = KINDS_OF_COMMANDS.filter(({ own }) => own.every((word, at) => word === words[at]));
  return named.sort((one, other) => other.own.length - one.own.length)[0];
}

// A line with another word at a place.
function withWord(line, at, word) {
  let count = -1;
  return line.replace(/[^ ]+/g, (it) => ++count === at ? word : it);
}

// A text as hexadecimal digits.
function hexOf(text) {
  return Array.from(bytesOf(text), (byte) => byte.toString(HEX_BASE).padStart(2, "0")).join("");
}

// Bytes as they were meant: digits with something around them, or a text.
function meantBytes(word) {
  const digits = word.replace(/^0x/i, "").replace(/[ ,_:-]/g, "");
  if (/^(?:[0-9a-f]{2})+$/i.test(digits)) return digits;
  return /^[0-9a-f]+$/i.test(digits) ? undefined : hexOf(word.replace(/^(["'])(.*)\1$/s, "$2"));
}

// Words of memory as they were meant: their digits with something around them.
function meantData(word) {
  const digits = meantBytes(word);
  return /^(?:0x)?[0-9a-f ,_:-]+$/i.test(word) && digits?.length % DIGITS_OF_WORD === 0 ? digits : undefined;
}

// What a word of a kind was meant to be, if that is clear.
function meant(kind, word) {
  if (kind === "Bytes") return meantBytes(word);
  if (kind === "Data") return meantData(word);
  if (kind === "Address") return ADDRESS.test(word) ? `&${ADDRESS.exec(word)[1].toUpperCase()}` : undefined;
  if (!NUMBERS.includes(kind)) return undefined;
  if (OTHER_NUMBER.test(word)) return String(parseInt(OTHER_NUMBER.exec(word)[1], HEX_BASE));
  return PARTED_NUMBER.test(word) ? word.replace(/[,_]/g, "") : undefined;
}

// The front of a word as it is shown, with signs in place of control bytes.
function shownWord(word) {
  const bytes = bytesOf(word);
  const front = textOf(bytes.slice(0, FAULTS.shown)).replace(/[\0-\x1f\x7f]/g, (it) =>
    `\\x${it.charCodeAt(0).toString(HEX_BASE).padStart(2, "0")}`);
  return bytes.length > FAULTS.shown ? `${front}..` : front;
}

// A word of a line, by its number.
function wordSays(number, word) {
  const [before, opened, closed] = FAULTS.word;
  return before + number + opened + shownWord(word) + closed;
}

const hexAddress = (number) => `&${number.toString(HEX_BASE).toUpperCase()}`;

// What is odd about the bytes of a bad line, if anything is, and what helps: its end, or else the first that no word may
// have.
function oddSays(line) {
  const bytes = bytesOf(line);
  const isEnd = bytes.at(-1) === CARRIAGE_RETURN;
  const byte = isEnd ? CARRIAGE_RETURN : bytes.find((it) => it < FIRST_OF_WORDS || it > LAST_OF_WORDS);
  if (byte === undefined) return "";
  const says = isEnd ? FAULTS.odd.Return : byte === TAB ? FAULTS.odd.Tab : FAULTS.odd.Foreign;
  return sentence(says.join(hexAddress(byte)));
}

// What is wrong with a line whose first word is no command.
function unknownFault(line, [command]) {
  const says = sentence(wordSays(1, command) + FAULTS.unknown);
  const other = OTHER_WORDS[command.toLowerCase()] ?? nearestWord(command, COMMANDS);
  if (!other) return { says: `${says} Help has all of them.` };
  return { says: `${says} Is ${other} meant?`, fix: withWord(line, 0, other) };
}

// What is wrong with a line that has too few words, or too many.
function countFault(words) {
  const { expected, own, words: kinds } = kindOf(words);
  const fault = { says: sentence(FAULTS.count + expected) };
  const last = own.length + kinds.length - 1;
  if (!["Bytes", "Data"].includes(kinds.at(-1)) || words.length <= last + 1) return fault;
  const bytes = meant(kinds.at(-1), words.slice(last).join(" "));
  return bytes ? { ...fault, fix: [...words.slice(0, last), bytes].join(" ") } : fault;
}

// What is wrong with one word of a line, by its place.
function wordFault(line, words, at) {
  const { forms, own, words: kinds } = kindOf(words);
  const kind = kinds[at - own.length];
  const says = sentence(wordSays(at + 1, words[at]) + FAULTS.expected + SENTENCES.words[kind]);
  const allowed = [...new Set(forms.map((form) => form.split(" ")[at]).filter((word) => word && !isKind(word)))];
  const word = allowed.length ? nearestWord(words[at], allowed) : meant(kind, words[at]);
  return { says, fix: word && withWord(line, at, word) };
}

// What is wrong with the words of a line, and the line that was meant, where that is clear.
function faultOfWords(line, kind, number) {
  const words = wordsOfLine(line);
  if (kind === "Unknown") return unknownFault(line, words);
  return kind === "Count" ? countFault(words) : wordFault(line, words, number - 1);
}

// What is wrong with a line that is bad, and the line that was meant, where that is clear.
function faultOf(line, kind, number) {
  const end = FAULTS.ends[kind];
  if (end) {
    return { says: sentence(end.says, end.helps), fix: kind === "Unended" ? line : undefined };
  }
  const odd = oddSays(line);
  const whole = mended(line);
  if (whole !== line) return { says: odd, fix: whole };
  const fault = faultOfWords(line, kind, number);
  return odd ? { ...fault, says: odd } : fault;
}

// Whether words of a reply are those that an outcome stands for: words in small letters are the same.
function isOutcome(outcome, words) {
  const wanted = outcome.split(" ");
  return wanted.length === words.length && wanted.every((it, at) => /[A-Z]/.test(it) || it === words[at]);
}

// What a poll did, by the words of its reply.
function pollSays([code, action, ref, , ...outcome]) {
  if (code === "0") return "No message waits for it.";
  const message = /^\d+$/.test(action) ? `message ${ref} of action ${action}` : `${action} ${ref}`;
  const comes = code === "19" ? `Its ${message} comes back: nobody has answered it.`
    : `It takes ${message}, which wants ${code === "18" ? "an" : "no"} answer.`;
  const found = Object.keys(OUTCOMES).find((it) => isOutcome(it, outcome));
  if (!found) return comes;
  const said = found.split(" ").reduce((says, word, at) =>
    /^[A-Z]+$/.test(word) ? says.replace(new RegExp(`\\b${word}\\b`), outcome[at]) : says, OUTCOMES[found]);
  return `${comes} ${said.replace(/\b1 bytes\b/, "1 byte")}`;
}

// A word of a line as the desk writes it: without zeros in front.
function plainWord(kind, word) {
  if (kind === "ADDR") return hexAddress(parseInt(word.slice(1), HEX_BASE));
  return /^\d+$/.test(word) ? String(Number(word)) : word;
}

// Why a command was refused, what that is about where a word of it says so, and what helps.
function refusedSays(line, name) {
  const { why, helps, about } = REFUSALS[name];
  const given = wordsOfLine(line);
  const kind = ABOUT[about];
  const at = formOf(line)?.words.indexOf(kind) ?? -1;
  const detail = at < 0 ? "" : SENTENCES.detail + plainWord(kind, given[at]);
  const own = kindOf(given)?.reasons[name];
  if (own) return `${sentence(own.why, own.helps)} Nothing was changed.`;
  const reason = name === "Busy" && given[0] === "save" ? BUSY_SAVE : why + detail;
  return `${sentence(reason, helps)} Nothing was changed.`;
}

// What a form does, with the numbers of a line put in.
function formSays({ says, words }, given) {
  const said = says.replace(/\bN\b/, (kind) => Number(given[words.indexOf(kind)]).toLocaleString("en"));
  return said.replace(/\b1 zero bytes\b/, "1 zero byte").replace(/\b1 bytes\b/, "1 byte");
}

// What a line that has run did, by its reply: how it went, a sentence, and the line that was meant where it is a near
// miss.
export function explained(line, reply) {
  const [outcome, ...rest] = reply.split("\n", 1)[0].split(" ");
  if (outcome === "bad") return { outcome, ...faultOf(line, rest[0], Number(rest[1])) };
  if (outcome === "refused") return { outcome, says: refusedSays(line, rest[0]) };
  const words = wordsOfLine(line);
  const form = formOf(line);
  if (!form) return { outcome, says: "" };
  return { outcome, says: words[0] === "poll" ? pollSays(rest) : formSays(form, words) };
}
