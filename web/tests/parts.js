// Tests of the parts of the page's script that need no page. Each test is named by what it shows.

import { bytesOf, textOf } from "./bytes.js";
import { Desk, packedFiles } from "./desk.js";
import { faultOfFile, faultOfName, nameFor } from "./files.js";
import { hashOf, readHash } from "./link.js";
import { Picture, lastStepOf } from "./picture.js";
import { formsFor } from "./complete.js";
import {
  addedByMark, hasReply, linesOf, markedText, outcomeOf, positionAfterStep, positionBeforeStep, repliesByLine,
  textOfLines,
} from "./script.js";

// Tells where two values aren't written alike.
export function same(found, wanted) {
  const [left, right] = [JSON.stringify(found), JSON.stringify(wanted)];
  if (left !== right) throw new Error(`${left} is not ${right}`);
}

// What an action says when it goes wrong, or an empty text.
export function told(action) {
  try {
    action();
    return "";
  } catch (fault) {
    return fault.message;
  }
}

globalThis.partFaults = [];
globalThis.partCount = 0;

// Runs tests, and notes those that go wrong, each with what is wrong.
export function runAll(tests) {
  for (const [name, test] of Object.entries(tests)) {
    globalThis.partCount++;
    const fault = told(test);
    if (fault) globalThis.partFaults.push(`${name}: ${fault}`);
  }
}

// Numbers that look random, the same each time.
function* numbers(seed) {
  for (let at = seed; ; at = (at * 48271) % 2147483647) yield at;
}

// Lists of bytes, many of which are UTF-8 in part.
function* byteLists() {
  const random = numbers(7);
  const next = (below) => random.next().value % below;
  const often = [0x0a, 0x20, 0x41, 0x80, 0xbf, 0xc2, 0xe0, 0xe2, 0x82, 0xac, 0xed, 0xa0, 0xb2, 0xf0, 0x9f, 0x98, 0xff];
  for (let count = 0; count < 2000; count++) {
    yield Uint8Array.from({ length: next(12) }, () => next(4) ? often[next(often.length)] : next(256));
  }
}

// The first and the last characters of each length in UTF-8, beside those that stand for no character.
const EDGES = [0x7f, 0x80, 0x7ff, 0x800, 0xfff, 0x1000, 0xd7ff, 0xe000, 0xffff, 0x10000, 0x3ffff, 0x40000, 0xfffff,
  0x100000, 0x10ffff];
// Bytes that are none: characters that are spelled too long, halves of one, and one behind the last.
const NEARLY_UTF8 = [[0xc1, 0xbf], [0xe0, 0x9f, 0xbf], [0xed, 0xa0, 0x80], [0xf0, 0x8f, 0xbf, 0xbf],
  [0xf4, 0x90, 0x80, 0x80], [0xf5, 0x80, 0x80, 0x80]];

// A script without lines, for a link.
const LINKED = { name: "a", pages: 64, position: 0, text: "", files: [] };

// The text of bytes none of which is UTF-8.
const loneOf = (bytes) => bytes.map((byte) => String.fromCharCode(0xdc00 + byte)).join("");

const lines = (...texts) => ({ lines: texts, isCut: false });

const TESTS = {
  "bytes come back from their text"() {
    for (const bytes of byteLists()) same([...bytesOf(textOf(bytes))], [...bytes]);
    same([...bytesOf(textOf(Uint8Array.of(0xef, 0xbb, 0xbf, 0x61)))], [0xef, 0xbb, 0xbf, 0x61]);
  },
  "UTF-8 is read as such, beside bytes that are none"() {
    same(textOf(Uint8Array.of(0xff, 0xe2, 0x82, 0xac, 0xc2)), "\udcff\u20ac\udcc2");
    for (const code of EDGES) {
      const text = String.fromCodePoint(code);
      same(textOf(Uint8Array.of(...new TextEncoder().encode(text), 0xff)), `${text}\udcff`);
    }
    for (const bytes of NEARLY_UTF8) same(textOf(Uint8Array.from(bytes)), loneOf(bytes));
  },
  "long texts lose nothing"() {
    for (const byteAt of [(at) => 0x80 + at % 0x40, (at) => at % 0x7001 ? 0x61 : 0xff]) {
      const bytes = Uint8Array.from({ length: 300001 }, (_, at) => byteAt(at));
      const found = bytesOf(textOf(bytes));
      same([found.length, found.findIndex((byte, at) => byte !== bytes[at])], [bytes.length, -1]);
    }
  },
  "a script is its lines"() {
    for (const text of ["", "\n", "a", "a\n", "a\nb", "\n\na\n"]) {
      const script = linesOf(text);
      same(textOfLines(script.lines, script.isCut), text);
    }
  },
  "remarks, lines without words and no others have no reply"() {
    same(["# x", "  #x", "", "   ", "a", " a", "\t", "\r", "#".repeat(1025)].map((line) => hasReply(line)),
      [false, false, false, false, true, true, true, true, true]);
    same([hasReply("#" + "\u20ac".repeat(341)), hasReply("#" + "\u20ac".repeat(342))], [false, true]);
  },
  "each reply goes to its line"() {
    same(repliesByLine(lines("# a", "areas", "", "x"), "ok 1\n  area 0 0\n  area 1 1\nbad Unknown\n"),
      [null, "ok 1\n  area 0 0\n  area 1 1", null, "bad Unknown"]);
    same(repliesByLine({ lines: ["a", "# cut"], isCut: true }, "ok\nbad Unended\n"), ["ok", "bad Unended"]);
    same(repliesByLine(lines("a", "b"), "ok\n"), undefined);
    same(repliesByLine(lines("a", "# b"), "ok\nok\n"), undefined);
    same(repliesByLine(lines(), ""), []);
  },
  "a reply says how its line went"() {
    const replies = ["ok", "ok 63\n  area 0 0", "refused NoFile", "bad Word 2", null];
    same(replies.map((reply) => outcomeOf(reply)), ["ok", "ok", "refused", "bad", ""]);
  },
  "steps go from command to command"() {
    const replies = [null, "ok", null, null, "ok", null];
    same([0, 1, 2, 5, 6].map((at) => positionAfterStep(replies, at)), [2, 2, 5, 6, 6]);
    same([6, 5, 2, 1, 0].map((at) => positionBeforeStep(replies, at)), [2, 2, 0, 0, 0]);
    same([0, 1].map((at) => positionAfterStep(["ok", "ok", "ok"], at)), [1, 2]);
  },
  "only the last command is marked"() {
    same(markedText(lines("#picture A", "task a 9", "# b", "areas", "x"), 3), "#\ntask a 9\n#picture\nareas\n");
    same(markedText(lines("a", "# b", " #picture C", "x"), 3), "a\n# b\n #picture C\nx\n");
    same(markedText(lines("a", "#picture C", "# b", "", "x"), 4), "a\n#picture C\n# b\n\nx\n");
    same(markedText(lines("a", "#pictures of a", "x"), 2), "a\n#picture\nx\n");
    same(markedText(lines("#picture", "#picture A", "a", "x"), 3), "#\n#\na\n#picture\nx\n");
    same([0, 2, 3].map((at) => addedByMark(lines("a", "# b", "x", "y"), at)), [1, 0, 1]);
    same(markedText({ lines: ["a", "# cut"], isCut: true }, 1), "a\n#picture\n# cut");
    same(markedText({ lines: ["a", "# cut"], isCut: true }, 0), "#picture\na\n");
  },
  "files are packed with their lengths"() {
    same([...packedFiles([{ name: "ab", bytes: Uint8Array.of(7) }, { name: "c", bytes: Uint8Array.of() }])],
      [2, 97, 98, 1, 0, 0, 0, 7, 1, 99, 0, 0, 0, 0]);
    same([...packedFiles([{ name: "a", bytes: new Uint8Array(0x10203) }]).subarray(0, 6)], [1, 97, 3, 2, 1, 0]);
  },
  "files get names that scripts can spell"() {
    same(["My file-1.bin", "12.txt", "12a3.txt", "a.b.c"].map((path) => nameFor(path, [])),
      ["Myfile1", "file", "a3", "ab"]);
    same(["a", "b"].map((path) => nameFor(path, [{ name: "ab" }, { name: "b" }])), ["a", "b2"]);
    const files = [];
    for (let count = 1; count <= 10; count++) files.push({ name: nameFor("abcdefghijklm", files) });
    same([0, 1, 8, 9].map((at) => files[at].name), ["abcdefghijkl", "abcdefghijk2", "abcdefghijk9", "abcdefghij10"]);
  },
  "a file's name is a letter and up to 11 letters or digits, and no other file's"() {
    const told = "A name is a letter, and up to 11 letters or digits.";
    same(["a", "Z9", "a23456789012", "a234567890123", "1a", "a b", "", "a\n", "a\n!"].map((it) => faultOfName(it, [])),
      ["", "", "", told, told, told, told, told, told]);
    same([faultOfName("a", [{ name: "b" }, { name: "a" }]), faultOfName("A", [{ name: "a" }])],
      ["Another file is named a.", ""]);
  },
  "a file has at most 1,048,576 bytes, and there are 32"() {
    same([1048576, 1048577].map((size) => faultOfFile("a.bin", size, [])),
      ["", "The file a.bin is too long: a file has at most 1048576 bytes."]);
    same([31, 32].map((count) => faultOfFile("a", 1, Array(count).fill({}))), ["", "There are 32 files already."]);
  },
  "a link holds any script"() {
    for (const bytes of byteLists()) {
      const script = { name: "a&b=c+d%.desk", pages: 8, position: 2, text: textOf(bytes), files: [] };
      same(readHash(hashOf(script)), script);
    }
    const files = [{ name: "f", bytes: Uint8Array.of(58, 255, 38) }, { name: "g", bytes: Uint8Array.of(0) }];
    const found = readHash(hashOf({ ...LINKED, files })).files.map(({ name, bytes }) => [name, ...bytes]);
    same(found, [["f", 58, 255, 38], ["g", 0]]);
  },
  "a link holds 32 files, in order"() {
    const files = Array.from({ length: 32 }, (_, at) => ({ name: `f${at}`, bytes: Uint8Array.of(at) }));
    const found = readHash(hashOf({ ...LINKED, files })).files.map(({ name, bytes }) => [name, ...bytes]);
    same(found, files.map(({ name }, at) => [name, at]));
  },
  "a link is spelled as other pages spell theirs"() {
    const files = [{ name: "f", bytes: Uint8Array.of(1, 32, 43) }];
    same(hashOf({ name: "a b.desk", pages: 8, position: 2, text: "task a 1\n\u20ac+\n", files }),
      "name=a+b.desk&pages=8&at=2&script=task+a+1%0A%E2%82%AC%2B%0A&file=f%3A%01+%2B");
  },
  "a link has at most 32,000 characters"() {
    const left = 32000 - hashOf(LINKED).length;
    same([left, left + 1].map((length) => hashOf({ ...LINKED, text: "a".repeat(length) })?.length), [32000, undefined]);
    const files = [{ name: "f", bytes: new Uint8Array(32001) }];
    same(["\n".repeat(20000), "a".repeat(32001)].map((text) => hashOf({ ...LINKED, text })), [undefined, undefined]);
    same(hashOf({ ...LINKED, files }), undefined);
  },
  "a link may have a script alone"() {
    same(readHash("script=areas%0A"), { name: "linked.desk", pages: 64, position: 0, text: "areas\n", files: [] });
    same(readHash("script=%e2%82%ac%0a").text, "\u20ac\n");
  },
  "a value of a link goes on behind an equals sign"() {
    same(readHash("script=%23+a=b==%0A&name=x=y").text, "# a=b==\n");
    same(readHash("script=%23+a=b==%0A&name=x=y").name, "x=y");
  },
  "no link is read that holds none"() {
    const hashes = ["", "script", "pages=8", "script=%", "script=%zz", "script=a b", "script=\u20ac"];
    same(hashes.map((hash) => readHash(hash)?.text), [undefined, "", ...Array(5).fill(undefined)]);
    same(hashes.map((hash) => readHash(hash) === undefined), [true, false, ...Array(5).fill(true)]);
  },
  "the forms of a command are found as it is typed"() {
    const found = (line) => formsFor(line).map(({ form }) => form);
    same(["", "z", "budge a x", "areas x"].map(found), [[], [], [], []]);
    same(found("bu"), ["budge NAME on", "budge NAME off"]);
    same(found("area"), ["areas", "area K DELTA"]);
    same([found("area "), found(" budge a"), found("budge a of")],
      [["area K DELTA"], ["budge NAME on", "budge NAME off"], ["budge NAME off"]]);
    same([found("areas "), found("cancel a in ")], [["areas"], ["cancel NAME in", "cancel NAME in ID"]]);
    same(found("c").length, 5);
  },
  "of a sheet the last figure is shown, with its style; links that lead out of it are plain words"() {
    const host = document.createElement("div");
    const link = (target) => `<a href="${target}">${target}</a>`;
    const links = `${["#in", "#out", "https://example.com/"].map(link).join("")}<b id="in"></b>`;
    const figure = (name) => `<div class="memory"><svg><title>${name}</title></svg>${links}</div>`;
    const aside = (name) => `<aside><svg><title>${name}</title></svg></aside>`;
    const step = (name) => `<section><p class="change">${name}</p>${figure(name)}${aside(`of ${name}`)}</section>`;
    const sheet = `<style>:root { --text: red; }</style><main>${step("one")}${step("two")}</main>`;
    const { style, changes, memory, messages } = lastStepOf(bytesOf(sheet));
    const picture = new Picture(host, ":host { color: var(--text); }");
    picture.show(style, memory, []);
    const found = (selector) => [...host.shadowRoot.querySelectorAll(selector)].map((it) => it.textContent);
    same([changes, found("title"), found("a[href]"), found("a").length], [["two"], ["two"], ["#in"], 3]);
    document.body.append(host);
    same(getComputedStyle(host).color, "rgb(255, 0, 0)");
    picture.show(style, messages, []);
    same([found("title"), found("details")], [["of two"], []]);
    const none = lastStepOf(bytesOf("<p>none</p>"));
    new Picture(document.createElement("div"), "").show(none.style, none.memory, none.legend);
    same([none.messages, none.changes], [[], []]);
  },
  "a step has the number of its line where a mark was put in before it"() {
    const beats = [3, 12, 13].map((it) => `<text class="beat">${it}</text>`).join("");
    const said = "12 RAMFetch from a to b, sent at line 13, waits. 3 DataSave, sent at line 3, taken at line 13. ";
    const sheet = `<main><section><aside><svg><desc>${said}</desc>${beats}</svg></aside></section></main>`;
    const numbers = (added) => {
      const [, aside] = lastStepOf(bytesOf(sheet), 12, added).messages;
      return [...aside.querySelectorAll("desc, .beat")].map((it) => it.textContent);
    };
    same(numbers(0), [said, "3", "12", "13"]);
    same(numbers(1), [said.replaceAll("line 13", "line 12"), "3", "12", "12"]);
  },
  "a module begins anew after it has stopped, and gets more room where its text needs it"() {
    const made = [];
    const desk = new Desk(() => {
      made.push(made.length === 0 ? exportsThatStop() : exportsThatWrite(300000));
      return made.at(-1);
    });
    same([told(() => desk.text("vf_run", JOB)), made.length], ["The module stopped (stop).", 2]);
    same([desk.text("vf_run", JOB).length, made.length], [300000, 2]);
  },
  "a module writes at most 64 MiB"() {
    const length = (bytes) => new Desk(() => exportsThatWrite(bytes)).text("vf_run", JOB).length;
    same(length(67108864), 67108864);
    same(told(() => length(67108865)), "What would be written is too long for this page.");
  },
  "a module that refuses is told with its status"() {
    const refused = (status) => told(() => new Desk(() => exportsThatWrite(0, status)).text("vf_run", JOB));
    const words = "The script, its files, or what would be written are too long for the module";
    same([2, 3, 5].map(refused), [2, 3, 5].map((status) => `${words} (status ${status}).`));
  },
  "a module of other calls is told"() {
    const { memory } = exportsThatWrite(0);
    same(told(() => new Desk(() => ({ memory }))), "The module has no vf_run.");
    const other = { ...exportsThatWrite(0), vf_map: () => 0 };
    same(told(() => new Desk(() => other)), "The module's vf_map doesn't take what this page gives to it.");
  },
};

const JOB = { pages: 8, script: Uint8Array.of(), files: Uint8Array.of() };

// The exports of a module whose vf_run does something, which takes as many numbers as that of a real one.
function exportsOf(run) {
  const memory = new WebAssembly.Memory({ address: "i64", initial: 1n });
  const call = (...words) => run(memory, ...words.slice(-2));
  return { memory, __heap_base: { value: 8n }, vf_run: Object.defineProperty(call, "length", { value: 12 }) };
}

function exportsThatStop() {
  return exportsOf(() => {
    throw new Error("stop");
  });
}

// Exports whose vf_run writes so many bytes, and gives a status where they have room.
function exportsThatWrite(bytes, status = 0) {
  return exportsOf((memory, length, needed) => {
    new DataView(memory.buffer).setBigUint64(Number(needed), BigInt(bytes), true);
    return length < BigInt(bytes) ? 4 : status;
  });
}

runAll(TESTS);
