// Tests of what is told of lines: explanations, near misses, words that are completed, the story, guesses and answers.

import { aboutWord, candidates } from "./complete.js";
import { explained } from "./explain.js";
import { judged } from "./guess.js";
import { dueQuestions, isSameAnswer, rightAnswer } from "./lessons.js";
import { hashIn } from "./link.js";
import { Live } from "./live.js";
import { mended, mendedLines, oddities } from "./mend.js";
import { runAll, same } from "./parts.js";
import { partsOfParagraph } from "./prose.js";
import { tale } from "./story.js";
import { SENTENCES } from "./sentences.js";
import { FORMS, OF_ONE_FORM, OUTCOMES, REFUSALS, isKind } from "./words.js";

// What is told of a line beside a reply, and the line that it may become.
function toldOf(line, reply) {
  const { says, fix } = explained(line, reply);
  return [says, fix];
}

// The line that a bad one may become.
const fixOf = (line, reply) => explained(line, reply).fix;

// A session in which tasks a and b are live, with blocks, a transfer and an area.
const ANSWERS = {
  areas: "ok 50\n  area 0 0\n  area 1 1\n  area 256 2\n  slot a 2\n  slot Other 1",
  "blocks a": "ok 2\n  0 &9008 5\n  2 &9018 8",
  "heap a": "ok 3840 3780 3800\n  used &8114 20\n  hole &8128 24\n  used &8144 20",
  "status a": "ok 1\n  out open 3 0\n  out done 1 5\n  in idle",
};
const LIVE_LINES = ["rma claim 8", "rma claim 9", "rma free &1800014", "rma resize &1800024 90", "rma claim 0"];
const LIVE_REPLIES = ["ok &1800014", "ok &1800024", "ok", "ok &1800044", "refused BadSize"];
// The same, where Other has code of its own and has taken messages: one of an action that no other task knows, and two
// with data. A task that was ended had its name before; and what was refused, or isn't taken, is none.
const RAW_LINES = ["task Other 5", "kill Other", "task a 5", "task Other 1 raw", "task gone 1 raw", "task a 5 raw",
  "poll Other", "poll Other", "poll Other", "poll a", "poll Other", "areas"];
const RAW_REPLIES = ["ok 1", "ok", "ok 2", "ok 3", "ok 4", "refused NameInUse", "ok 17 99 1 0 taken\n  from 2 00000000",
  "ok 18 DataSave 2 0 taken\n  from 2 0000", "ok 18 RAMFetch 5 4 taken\n  from 2 14810000",
  "ok 18 RAMFetch 6 5 sent 4 7", "ok 0", "ok 50"];

function liveSession(lines = LIVE_LINES, replies = LIVE_REPLIES) {
  const notes = [];
  const state = { lines, position: lines.length };
  const ask = (question) => {
    notes.push(question);
    return ANSWERS[question] ?? "refused NoName";
  };
  return { notes, state, replies, asked: ask };
}

const FILES = [{ name: "logo", bytes: new Uint8Array(7) }];
const wordsIn = (session, line, files = FILES) => candidates(line, new Live(session), files).map(({ word }) => word);
const wordsFor = (line) => wordsIn(liveSession(), line);
const wordsOfRaw = (line) => wordsIn(liveSession(RAW_LINES, RAW_REPLIES), line);

const WORDS_TESTS = {
  "each form of a command is told with the words that it has"() {
    same([FORMS.length, new Set(FORMS.map(({ form }) => form)).size], [42, 42]);
    for (const { words, about, says } of FORMS) {
      same(about.map((it) => it !== undefined), words.map(isKind));
      same(about.filter((it) => it?.length < 5), []);
      same(new Set(about.filter(Boolean)).size, words.filter(isKind).length);
      const unknown = words.slice(1).filter((word) => /^[A-Z]+$/.test(word) && !isKind(word));
      same([unknown, /^[A-Z].*\.$/.test(says)], [[], true]);
    }
  },
  "a form has a sentence of its own just where its kind has several, and else that of the program"() {
    const all = Object.values(SENTENCES.commands);
    const shared = all.filter(({ forms, own }) => forms.length > 1 && own[0] !== "rma").flatMap(({ forms }) => forms);
    same(Object.keys(OF_ONE_FORM).sort(), shared.sort());
    const others = FORMS.filter(({ form }) => !OF_ONE_FORM[form]);
    same(others.filter(({ form, says }) => !all.some((it) => it.forms.includes(form) && it.does === says)), []);
    const names = new Set(FORMS.flatMap(({ refusals }) => refusals));
    same([...names].sort(), Object.keys(REFUSALS).sort());
  },
  "a command is told with its numbers put in"() {
    same(toldOf("alloc a 0 5", "ok &9008"), ["Puts a new flex block of 5 zero bytes above the others.", undefined]);
    same(toldOf("alloc a 0 1", "ok &9008")[0], "Puts a new flex block of 1 zero byte above the others.");
    same(toldOf(" claim  a 2000 ", "ok &8114")[0],
      "Claims a block of 2,000 bytes: in the first hole that is large enough, or on top.");
    same([toldOf("budge a off", "ok on")[0], toldOf("areas", "ok 63\n  area 0 0")[0]],
      ["Forbids the C heap to grow.", "Asks for the free pages, and for those of each area and each slot."]);
  },
  "a poll is told by its reply"() {
    same(toldOf("poll a", "ok 0")[0], "No message waits for it.");
    same(toldOf("poll a", "ok 18 DataSave 1 0 fetch 2")[0],
      "It takes DataSave 1, which wants an answer. A transfer begins: RAMFetch 2 asks for the first bytes.");
    same(["ok 17 99 4 0 taken\n  from 2 00", "ok 19 99 4 0 taken"].map((reply) => toldOf("poll a", reply)[0]),
      ["It takes message 4 of action 99, which wants no answer. Its own code has the message now.",
        "Its message 4 of action 99 comes back: nobody has answered it. Its own code has the message now."]);
    same(toldOf("poll a", "ok 17 RAMTransmit 7 6 took 1 done")[0],
      "It takes RAMTransmit 7, which wants no answer. It moves 1 byte into the document, which is whole now.");
    same(toldOf("poll a", "ok 19 RAMFetch 4 3 failed")[0],
      "Its RAMFetch 4 comes back: nobody has answered it. The transfer fails.");
    same(toldOf("poll a", "ok 18 RAMTransmit 3 2 took 4 failed NoTask")[0],
      "It takes RAMTransmit 3, which wants an answer. "
      + "It moves 4 bytes into the document, but the next RAMFetch is refused.");
  },
  "each outcome of a poll is told"() {
    for (const [outcome, says] of Object.entries(OUTCOMES)) {
      const words = outcome.replace("REFUSAL", "NoRoom").replace("REF", "77").replace(/\bN\b/, "12345");
      const told = toldOf("poll a", `ok 18 DataSave 1 0 ${words}`)[0];
      same([/\b(?:REF|N|REFUSAL)\b/.test(told), told.startsWith("It takes DataSave 1, which wants an answer. ")],
        [false, true]);
      same([/77/.test(told), /12345/.test(told)], [/\bREF\b/.test(says), /\bN\b/.test(says)]);
    }
  },
  "each refusal is told, with the task that the command names"() {
    for (const name of Object.keys(REFUSALS)) {
      const [says, fix] = toldOf("kill zed", `refused ${name}`);
      same([says.endsWith(" Nothing was changed."), fix], [true, undefined]);
    }
    same(toldOf("kill zed", "refused NoName")[0],
      "No live task has this name: zed \u2013 start it by task NAME BUF; upper and lower case differ. "
      + "Nothing was changed.");
  },
  "a refusal is about a word of its line, as the desk writes it"() {
    const found = [["free a 007", "NoBlock"], ["save a 1 zed doc", "NoTask"], ["repeat a", "NoTask"],
      ["release a &0008114", "NotABlock"], ["rma free &1800014", "NotYours"], ["area 0300 1", "NoArea"],
      ["load a 1 logo", "NoFile"], ["claim a 9", "NoRoom"], ["put a 0 9 00", "BadRange"], ["free a 0", "Busy"],
      ["save a 0 b doc", "Busy"]];
    same(found.map(([line, name]) => toldOf(line, `refused ${name}`)[0].split(" \u2013 ")[0]),
      ["This anchor has no block: 7", "The task that this is for isn\u2019t live: zed",
        "The task that this is for isn\u2019t live", "No used block begins at this address: &8114",
        "A message lies in this block of the module area: &1800014", "No area has this number: 300",
        "No file has this name: logo", "The pool has too few free pages", "Offset or bytes lie outside the block",
        "A transfer uses the block", "A transfer uses the block, or eight transfers that go out are open"]);
  },
  "a command has its own reasons where those of its refusal are others"() {
    const found = [["read a &9008 6", "BadRange"], ["write r &9008 00", "BadRange"], ["write a &9008 00", "WrongManner"],
      ["save r 0 a doc", "WrongManner"], ["spool r 0 1 0", "Busy"]];
    same(found.map(([line, name]) => toldOf(line, `refused ${name}`)[0].replace(" Nothing was changed.", "")),
      ["No live block has these bytes \u2013 heap and blocks list the task\u2019s blocks.",
        "No live block has these bytes \u2013 heap and blocks list the task\u2019s blocks.",
        "This isn\u2019t for tasks of its manner \u2013 write is for raw tasks; others write by put.",
        "This isn\u2019t for tasks of its manner \u2013 save isn\u2019t for raw tasks; they send by send or spool.",
        "There is a scrap file already \u2013 it goes when its DataLoad is loaded or answered."]);
  },
  "a word that is no command becomes the one that was meant"() {
    const lines = ["tsk a 9", "Task a 9", "malloc a 9", "realloc a &8114 8", "clam a 9", "heaps a", "xyzzy a", "q"];
    same(lines.map((line) => fixOf(line, "bad Unknown")),
      ["task a 9", "task a 9", "claim a 9", "resize a &8114 8", "claim a 9", "heap a", undefined, undefined]);
    same(toldOf("xyzzy a", "bad Unknown")[0], 'Word 1 "xyzzy": no command has this name. Help has all of them.');
    same(toldOf("  malloc a 9", "bad Unknown"),
      ['Word 1 "malloc": no command has this name. Is claim meant?', "  claim a 9"]);
  },
  "a number or an address becomes what was meant"() {
    const found = [["release a 8114", 3], ["release a 0x8114", 3], ["release a $8114", 3], ["release a 12", 3],
      ["alloc a 0 0x10", 4], ["alloc a 0 &10", 4], ["alloc a 0 1,000", 4], ["alloc a 0 -5", 4], ["alloc a 64 5", 3],
      ["mid a 0 5 1_000", 5], ["area 1 -4,096", 3]];
    same(found.map(([line, word]) => fixOf(line, `bad Word ${word}`)),
      ["release a &8114", "release a &8114", "release a &8114", undefined, "alloc a 0 16", "alloc a 0 16",
        "alloc a 0 1000", undefined, undefined, "mid a 0 5 1000", "area 1 -4096"]);
    same(toldOf("alloc a 64 5", "bad Word 3")[0], 'Word 3 "64": an anchor is 0 to 63.');
  },
  "numbers and words of a message become what was meant"() {
    const found = [["send a 18 &2 0 1", "Word 4"], ["send a 18 2 0 &80146", "Word 6"], ["send a 19 2 0 1", "Word 3"],
      ["send a 18 2 0 1 0x14810000", "Word 7"], ["send a 18 2 0 1 148100", "Word 7"],
      ["send a 18 2 0 1 hello", "Word 7"], ["send a 18 2 0 1 14810000 04000000", "Count"],
      ["send a 18 2 0 1 0 0", "Count"], ["send a 18 2", "Count"]];
    same(found.map(([line, reply]) => fixOf(line, `bad ${reply}`)?.replace("send a 18 ", "")),
      ["2 0 1", "2 0 524614", undefined, "2 0 1 14810000", undefined, undefined, "2 0 1 1481000004000000", undefined,
        undefined]);
  },
  "a text becomes its bytes, and bytes that are parted are joined"() {
    const found = [["put a 0 0 hello", "Word 5"], ["put a 0 0 'hi'", "Word 5"], ["put a 0 0 0x6869", "Word 5"],
      ["put a 0 0 68:69", "Word 5"], ["put a 0 0 abc", "Word 5"], ["put a 0 0 68 69 6a", "Count"],
      ["put a 0 0 hello world", "Count"], ["put a 0 0 \u20ac", "Word 5"], ["put a 0 hello", "Count"]];
    same(found.map(([line, reply]) => fixOf(line, `bad ${reply}`)?.replace("put a 0 0 ", "")),
      ["68656c6c6f", "6869", "6869", "6869", undefined, "68696a", "68656c6c6f20776f726c64", "e282ac", undefined]);
  },
  "a word that a form has becomes that, and other words are named"() {
    same(toldOf("budge a onn", "bad Word 3"), ['Word 3 "onn": this word is on or off.', "budge a on"]);
    same(toldOf("cancel a up", "bad Word 3"), ['Word 3 "up": this word is in or out.', undefined]);
    same(toldOf("rma clam 5", "bad Word 2"), ['Word 2 "clam": this word is claim, free or resize.', "rma claim 5"]);
    same(toldOf("rma", "bad Count")[0], "Expected rma claim N, rma free ADDR or rma resize ADDR DELTA.");
    same(toldOf("rma free", "bad Count")[0], "Expected rma free ADDR.");
    same(toldOf("task a", "bad Count")[0],
      "Expected task NAME BUF, task NAME BUF deaf, task NAME BUF file or task NAME BUF raw.");
    same(toldOf("task 1a 5", "bad Word 2")[0], 'Word 2 "1a": a name is a letter, then up to 11 letters or digits.');
    same(toldOf(`kill ${"b".repeat(17)}`, "bad Word 2")[0],
      `Word 2 "${"b".repeat(16)}..": a name is a letter, then up to 11 letters or digits.`);
  },
  "bytes that no word may have are told before its words"() {
    const helps = "words have characters from ! to ~ alone.";
    same([toldOf("kill a\u001b", "bad Word 2"), toldOf("areas\t\u0001", "bad Unknown")[0],
      toldOf("\u20ac", "bad Unknown")[0], toldOf("put a 0 0 \u20ac", "bad Word 5"),
      toldOf("areas\r", "bad Unended")[0]],
    [[`The byte &1B; ${helps}`, undefined], "A tab; part words by spaces.", `The byte &E2; ${helps}`,
      [`The byte &E2; ${helps}`, "put a 0 0 e282ac"],
      "Cut, as the script ends without a line feed \u2013 end the last line with a line feed."]);
  },
  "characters that part no words become such that do"() {
    const lines = ["task\ta\t9\r", "alloc\u00a0a 0 5", "area 1 \u2212409", "\ufefftask a 9", "# a\tb\u2014c\r",
      "areas"];
    same(lines.map(mended), ["task a 9", "alloc a 0 5", "area 1 -409", "task a 9", "# a\tb\u2014c", "areas"]);
    same(mendedLines(lines).count, 5);
    same(fixOf("task a 9\r", "bad Word 3"), "task a 9");
    same([fixOf("areas", "bad Unended"), fixOf(`# ${"a".repeat(1030)}`, "bad TooLong")], ["areas", undefined]);
  },
  "what is odd about a script is told"() {
    same(["areas\n", "# \u2014 a\tb\n"].map(oddities), ["", ""]);
    same(oddities("areas\r\nareas\r\n"), "2 lines have line ends of Windows, which part no words in a script.");
    same(oddities("areas\t\nareas\r\nareas\n"),
      "2 lines have line ends of Windows and tabs, which part no words in a script.");
    same(oddities("area 1 \u22125\n"), "1 line has long dashes, which part no words in a script.");
  },
  "what is live is asked once, until other lines have run"() {
    const session = liveSession();
    const live = new Live(session);
    same([live.tasks, live.tasks, live.blocks("a").length, session.notes], [["a", "Other"], ["a", "Other"], 2,
      ["areas", "blocks a"]]);
    session.state = { ...session.state, position: 0 };
    same([live.tasks, live.inModuleArea, session.notes.length], [["a", "Other"], [], 3]);
  },
  "words are completed by forms and by what is live"() {
    same(wordsFor("cl"), ["claim"]);
    same(wordsFor("c"), ["claim", "cancel"]);
    same([wordsFor("task "), wordsFor("kill "), wordsFor("poll o")], [[], ["a", "Other"], ["Other"]]);
    same([wordsFor("free a "), wordsFor("alloc a "), wordsFor("save a 0 ")], [["0", "2"], ["1"], ["Other"]]);
    same([wordsFor("release a "), wordsFor("resize a &81"), wordsFor("release b ")],
      [["&8114", "&8144"], ["&8114", "&8144"], []]);
    same([wordsFor("budge a "), wordsFor("cancel a out "), wordsFor("cancel a in "), wordsFor("load a 1 ")],
      [["on", "off"], ["3", "1"], [], ["logo"]]);
    same([wordsFor("area "), wordsFor("remove "), wordsFor("rma "), wordsFor("rma free ")],
      [["0", "1", "256"], ["256"], ["claim", "free", "resize"], ["&1800044"]]);
    same([wordsFor("areas "), wordsFor("nothing "), wordsFor("free a 0 "), wordsFor("kill a")], [[], [], [], []]);
  },
  "words of tasks with code of their own are completed by what is live"() {
    same([wordsOfRaw("send "), wordsOfRaw("ack "), wordsOfRaw("read "), wordsOfRaw("save "), wordsOfRaw("poll ")],
      [["Other"], ["Other"], ["a", "Other"], ["a"], ["a", "Other"]]);
    same([wordsOfRaw("send Other "), wordsOfRaw("send Other 18 "), wordsOfRaw("send Other 18 2 ")],
      [["17", "18"], ["2"], ["5", "2", "1", "0"]]);
    same([wordsOfRaw("send Other 18 2 5 "), wordsOfRaw("spool Other 0 "), wordsOfRaw("spool Other 0 2 ")],
      [["1", "2", "3", "4", "6", "7"], ["2"], ["5", "2", "1", "0"]]);
    same([wordsOfRaw("send Other 17 2 5 7 "), wordsOfRaw("send Other 17 2 4 7 "), wordsOfRaw("send Other 18 2 2 6 ")],
      [["14810000"], [], []]);
    same([wordsOfRaw("send a 18 3 2 6 "), wordsOfRaw("read a ")],
      [["1481000014000000", "4481000014000000"], ["&8114", "&8144", "&9008", "&9018"]]);
    same([wordsOfRaw("transfer Other &8114 2 "), wordsOfRaw("transfer Other &8114 9 "), wordsOfRaw("scrap a ")],
      [["&8114", "&8144", "&9008", "&9018"], [], ["1"]]);
    same([wordsFor("send "), wordsFor("send a 18 "), wordsFor("send a 18 1 ")], [[], [], ["0"]]);
  },
  "the word that is being typed is told"() {
    const about = (line) => aboutWord(FORMS.find(({ form }) => line.startsWith(form.split(" ")[0])), line);
    same([about("kill "), about("alloc a "), about("claim a 1"), about("areas")],
      ["NAME: a live task", "A: an anchor without a block, 0 to 63", "N: how many bytes",
        "Asks for the free pages, and for those of each area and each slot."]);
    same([about("transfer a "), about("transfer a &8114 2 ")],
      ["ADDR: where they are, as &8114", "ADDR: where they go: what the other task has opened"]);
  },
  "a remark is told until the next one, and a title at its command alone"() {
    const lines = ["# one", "# two", "a", "#picture First", "b", "c", "", "# three", "#picture Second", "d", "e"];
    const found = [2, 4, 5, 9, 10].map((at) => Object.values(tale(lines, at)));
    same(found, [["one two", ""], ["", "First"], ["", ""], ["three", "Second"], ["three", ""]]);
    same([tale([], 0), tale(["# a"], 1), tale(["#  a", "#b"], 2).remark], [{ remark: "", title: "" },
      { remark: "a", title: "" }, "a b"]);
    same(tale(["# far", ...Array(1500).fill("a")], 1400).remark, "");
  },
  "guesses are judged by the first line of the reply"() {
    const found = ["ok &8114", "&8114", "8114", "OK", "ok &9", "no", "", "  "].map((it) => judged(it, "ok &8114\n  x"));
    same(found.map(({ kind, says }) => [kind, says.split(":")[0]]), [["right", "Right"], ["right", "Right"],
      ["right", "Right"], ["wrong", "Nearly"], ["wrong", "Nearly"], ["wrong", "No"], ["", "It is"], ["", "It is"]]);
    same([judged("ok", "ok"), judged("refused", "ok"), judged("noroom", "refused NoRoom")].map(({ kind }) => kind),
      ["right", "wrong", "right"]);
  },
  "answers are the same but for case, an & and zeros before"() {
    const alike = [["&824c", "&824C"], ["824C", "&824C"], [" 7920 bytes", "7920"], ["0", "0"], ["Failed", "failed"]];
    const other = [["824D", "&824C"], ["", "0"], ["79", "7920"], ["", "failed"]];
    same([...alike, ...other].map(([given, right]) => isSameAnswer(given, right)),
      [true, true, true, true, true, false, false, false, false]);
  },
  "a right answer is a word of the module's reply to lines of a lesson and a question's commands"() {
    const jobs = [];
    const session = { replyTo: (job) => (jobs.push(job), "ok 2\n  0 &9008 5\n  1 &9018 5") };
    const lesson = { lines: ["a", "b", "c"], pages: 9, files: FILES };
    const field = { upTo: 2, then: ["x"], row: 3, word: 2 };
    same(rightAnswer(field, lesson, session), "&9018");
    same(rightAnswer({ ...field, row: 9 }, lesson, session), "");
    same(jobs[0], { lines: ["a", "b", "x"], pages: 9, files: FILES });
  },
  "the questions that were asked last are due"() {
    const questions = [2, 5, 5, 9].map((after, at) => ({ after, at }));
    same([0, 2, 4, 5, 8, 20].map((position) => dueQuestions(questions, position).map(({ at }) => at)),
      [[], [0], [0], [1, 2], [1, 2], [3]]);
  },
  "a paragraph has code and words that stand out"() {
    const shown = partsOfParagraph("a `b c` **d** *e* f*g").map((it) => it.outerHTML ?? it);
    same(shown.filter(Boolean), ["a ", "<code>b c</code>", " ", "<strong>d</strong>", " ", "<em>e</em>", " f*g"]);
  },
  "a link is found in what is entered, and no command is taken for one"() {
    const found = ["file:///x.html#name=a&script=areas%0A", "#script=areas%0A", "script=a&at=1", " pages=9&script= "];
    same(found.map(hashIn), ["name=a&script=areas%0A", "script=areas%0A", "script=a&at=1", "pages=9&script="]);
    same(["areas", "name=a", "put a 0 0 script=", "script=a b", "#picture script=a"].map(hashIn), ["", "", "", "", ""]);
  },
};

runAll(WORDS_TESTS);
