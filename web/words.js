// What the page says of commands, refusals and polls. Sentences that explain and help COMMAND have as well stand in
// their definitions alone (sentences.js); of those here each table says why they are the page's own.

import { SENTENCES } from "./sentences.js";

// The numbers that a word of a kind may be, as its sentence has them.
const rangeOf = (kind) => /\d+ to \d+/.exec(SENTENCES.words[kind])[0];

const BUFFER = `the bytes of its receive buffer, ${rangeOf("Buffer")}`;
const NEW_TASK = { NAME: "a name that no live task has", BUF: BUFFER };
const FREE_ANCHOR = `an anchor without a block, ${rangeOf("Anchor")}`;
const IN_MODULE_AREA = { ADDR: "its address, as &1800014" };
const IN_A_BLOCK = { ADDR: "an address in a block of the task, as &8114" };
const RAW = { NAME: "a live task with code of its own" };
const GETS_IT = { ...RAW, HANDLE: "the task that gets it, by its handle" };

// The kinds of commands, as help shows them.
const GROUPS_OF_KINDS = [
  ["Tasks", ["Task", "Kill", "Areas"]],
  ["Flex blocks", ["Alloc", "Load", "Put", "Show", "Blocks", "Extend", "Mid", "Free"]],
  ["C heap", ["Claim", "Release", "Resize", "Heap", "Budge"]],
  ["Files handed over", ["Save", "Poll", "Status", "Repeat", "Cancel"]],
  ["Tasks with code of their own", ["Send", "Ack", "Transfer", "Spool", "Scrap", "Read", "Write"]],
  ["Areas of pages", ["Area", "Make", "Remove", "RmaClaim", "RmaFree", "RmaResize"]],
];

// What a command does where its kind has several forms: the program's help has a sentence for all of them, and the page
// tells what one line did.
export const OF_ONE_FORM = {
  "task NAME BUF": "Starts a task. Its slot has one page.",
  "task NAME BUF deaf": "Starts a task that ignores each file that it is offered.",
  "task NAME BUF file": "Starts a task that answers no RAMFetch: its files go by way of the scrap file.",
  "task NAME BUF raw": "Starts a task with code of its own: it takes messages, and you send its answers.",
  "send NAME CODE HANDLE REF ACTION": "Sends a message of an action, with nothing behind that.",
  "send NAME CODE HANDLE REF ACTION DATA": "Sends a message of an action, with words behind that.",
  "budge NAME on": "Lets the C heap grow: the flex blocks budge then.",
  "budge NAME off": "Forbids the C heap to grow.",
  "cancel NAME in": "Gives up the transfer that comes in.",
  "cancel NAME in ID": "Gives up one of the transfers that come in.",
  "cancel NAME out": "Gives up the transfer that goes out.",
  "cancel NAME out ID": "Gives up one of the transfers that go out.",
};

// What a word of a form stands for. The program says what it has to be; the page shows both beside what is typed.
const ABOUT_WORDS = {
  NAME: "a live task", TO: "a task", FILE: "a file that was added", A: "the anchor of a flex block", BUF: BUFFER,
  N: "how many bytes", OFF: "an offset", AT: "an offset", DELTA: "how many bytes more, or with - fewer",
  BY: "how many bytes", K: "an area: 0 to 5, or one that was made", MAX: "the most pages that it may have",
  ID: "a transfer, by the ref of its DataSave", ADDR: "the address of a block, as &8114",
  HEX: "bytes in hexadecimal: 68656c6c6f spells hello", LEAF: "a name for the file",
  CODE: "17, or 18 for a message that comes back where it isn’t answered", HANDLE: "a task, by its handle",
  REF: "the message that this answers, or 0", ACTION: "what the message is: 1 is DataSave, 6 RAMFetch",
  DATA: "the words behind the action, in hexadecimal",
};

// The same where it isn't as usual. Of a word that stands twice in a form each has its own.
const ABOUT_IN = {
  Task: NEW_TASK, Alloc: { A: FREE_ANCHOR }, Load: { A: FREE_ANCHOR },
  Put: { OFF: "where in the block the first byte goes" }, Extend: { N: "its new size in bytes" },
  Mid: { AT: "the offset", BY: "how many to put in, or with - to take out" },
  Save: { TO: "the task that gets it" }, Send: GETS_IT, Ack: RAW, Spool: GETS_IT, Scrap: { ...RAW, A: FREE_ANCHOR },
  Transfer: { ...RAW, ADDR: ["where they are, as &8114", "where they go: what the other task has opened"],
    HANDLE: "the task that gets them, by its handle" },
  Read: IN_A_BLOCK, Write: { ...RAW, ...IN_A_BLOCK }, Remove: { K: `its number, ${rangeOf("MadeNumber")}` },
  RmaFree: IN_MODULE_AREA, RmaResize: IN_MODULE_AREA,
};

// What the word at a place of a form stands for, if that stands for others.
function aboutAt(kind, words, at) {
  const word = words[at];
  const said = ABOUT_IN[kind]?.[word] ?? ABOUT_WORDS[word];
  return Array.isArray(said) ? said[words.slice(0, at).filter((it) => it === word).length] : said;
}

// The forms of a kind of command: the words of each, what it does, what each word is, and why it may be refused.
function formsOf(kind) {
  const { forms, does, refusals } = SENTENCES.commands[kind];
  return forms.map((form) => {
    const words = form.split(" ");
    const about = words.map((_, at) => aboutAt(kind, words, at));
    return { form, words, says: OF_ONE_FORM[form] ?? does, about, refusals };
  });
}

export const GROUPS = GROUPS_OF_KINDS.map(([label, kinds]) => ({ label, forms: kinds.flatMap(formsOf) }));

// All forms of commands.
export const FORMS = GROUPS.flatMap(({ forms }) => forms);

// Whether a word of a form stands for others.
export function isKind(word) {
  return word in ABOUT_WORDS;
}

// A sentence of what the program writes: what is said, and what helps, if anything does.
export function sentence(said, helps = "") {
  const bare = said.replace(/^[ ,:]+/, "");
  return `${bare[0].toUpperCase()}${bare.slice(1)}${helps && ` \u2013 ${helps}`}.`.replace(/'/g, "\u2019");
}

// What helps here: files and pages are given to the page in another way than to the program, and where the program has
// nothing that helps, the page says what the refusal means.
const HELPS_HERE = {
  NoFile: "files are added behind “File…”",
  NoRoom: "areas lists the pages; free some, or begin with more behind “File…”",
  NoHandles: "no task can be started any more",
  NoRefs: "no message can be sent any more",
};

// Why a command was refused, and what helps.
export const REFUSALS = Object.fromEntries(Object.entries(SENTENCES.refusals).map(([name, { why, helps, about }]) =>
  [name, { why, about, helps: HELPS_HERE[name] ?? helps }]));

// A block is busy or all transfers that go out are open: the program asks the desk which it is. In a poll, of which the
// program explains nothing, Busy is about the scrap file.
export const BUSY_SAVE = `${REFUSALS.Busy.why}, or ${SENTENCES.allBusy}`;
const BUSY = `${BUSY_SAVE}, or there is a scrap file already`;

// What help says of each refusal.
export const REFUSALS_TOLD = Object.entries(REFUSALS).map(([name, { why, helps }]) =>
  [name, sentence(name === "Busy" ? BUSY : why, helps)]);

// What a poll did with the message, by the words behind it in the reply. The program explains no command that was done.
export const OUTCOMES = {
  "fetch REF": "A transfer begins: RAMFetch REF asks for the first bytes.",
  "sent N REF": "It writes N bytes into the receiver’s buffer, and says that by RAMTransmit REF.",
  "took N done": "It moves N bytes into the document, which is whole now.",
  "took N fetch REF": "It moves N bytes into the document, and asks for more by RAMFetch REF.",
  "took N failed REFUSAL": "It moves N bytes into the document, but the next RAMFetch is refused.",
  "drained": "The transfer was given up; its buffer is released now.",
  "asked REF": "It asks for the file by way of the scrap file, by DataSaveAck REF.",
  "saved N REF": "It saves N bytes as the scrap file, and says that by DataLoad REF.",
  "loaded N done": "It loads N bytes of the scrap file: they are the document.",
  "loaded N failed REFUSAL": "It loads N bytes of the scrap file, but its answer is refused.",
  "done": "The transfer is done: the file was loaded.",
  "taken": "Its own code has the message now.",
  "failed REFUSAL": "What it asks for is refused, and the transfer fails.",
  "failed": "The transfer fails.",
  "ignored": "Nothing is done with it.",
};

// Words that other languages or programs have for a command. The program guesses none.
export const OTHER_WORDS = {
  malloc: "claim", calloc: "claim", realloc: "resize", new: "task", start: "task", spawn: "task", stop: "kill",
  delete: "free", dealloc: "free", store: "put", print: "show", dump: "show",
  list: "blocks", give: "save", receive: "poll", wait: "poll", abort: "cancel", pages: "areas",
};
