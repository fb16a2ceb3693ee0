// Tests of what the page keeps, with a desk that stands in for the module.

import { bytesOf, textOf } from "./bytes.js";
import { historyOfText, textOfHistory } from "./kept.js";
import { runAll, same } from "./parts.js";
import { hasReply, linesOf } from "./script.js";
import { Session, arePages, deskName } from "./session.js";

// A desk that replies `ok` and the line to each line that has a reply, and keeps what it was asked for.
function echo() {
  const asked = [];
  const text = (call, { script, name, ...others }) => {
    asked.push({ call, script: textOf(script), name: textOf(name), ...others });
    const { lines, isCut } = linesOf(textOf(script));
    const replied = lines.filter((line, at) => hasReply(line) || (isCut && at === lines.length - 1));
    return bytesOf(replied.map((line) => `ok ${line}\n`).join(""));
  };
  return { asked, has: () => true, text };
}

// A session with a script of which some lines have run.
function sessionOf(text, position = 0) {
  const session = new Session(echo());
  session.load({ name: "a.desk", text, position });
  return session;
}

// How many lines have run after lines were put in place of others in a script of five.
function positionAfter(position, from, to, lines) {
  const session = sessionOf("a\nb\nc\nd\ne\n", position);
  session.replace(from, to, lines);
  return session.state.position;
}

const SESSION_TESTS = {
  "a pool has 8 to 1024 pages"() {
    same([7, 8, 1024, 1025, 8.5, NaN].map(arePages), [false, true, true, false, false, false]);
  },
  "a script has the name of its file"() {
    same(["a/b.txt", "x.desk", "x.desk.desk", "a.txt.b", "", ".desk"].map(deskName),
      ["a-b.desk", "x.desk", "x.desk.desk", "a.txt.b.desk", "script.desk", "script.desk"]);
    same(deskName(`${"n".repeat(100)}m`), `${"n".repeat(100)}.desk`);
  },
  "a script has at most 8,388,608 characters"() {
    const desk = { ...echo(), text: () => bytesOf("bad TooLong\n") };
    const fault = (length) => {
      const session = new Session(desk);
      session.load({ name: "a", text: `${"a".repeat(length - 1)}\n` });
      return session.fault;
    };
    same([8388608, 8388609].map(fault), ["", "The script is too long for this page."]);
  },
  "a script that is loaded has run up to its place, if that is one"() {
    same([0, 2, 3, 4, -1, NaN, 1.5].map((at) => sessionOf("a\nb\nc\n", at).state.position), [0, 2, 3, 3, 0, 0, 1]);
  },
  "a script that is loaded brings 64 pages and no files of the one before"() {
    const session = sessionOf("a\n", 1);
    session.change({ pages: 8, files: [{ name: "f", bytes: Uint8Array.of(1) }] });
    session.load({ name: "b", text: "b\n" });
    same(session.state,
      { example: "", name: "b.desk", lines: ["b"], isCut: false, position: 0, pages: 64, files: [] });
  },
  "the last 50 changes are taken back, one by one"() {
    const session = new Session(echo());
    for (let count = 1; count <= 52; count++) session.change({ pages: 100 + count });
    const found = [];
    while (session.canUndo) {
      session.undo();
      found.push(session.state.pages);
    }
    same([found.length, found[0], found.at(-1)], [50, 151, 102]);
    session.undo();
    same(session.state.pages, 102);
  },
  "a change that is taken back leaves the script as it was, with the place where it stood"() {
    const session = sessionOf("a\nb\nc\n", 2);
    session.change({ files: [{ name: "f", bytes: Uint8Array.of(1) }], pages: 8 });
    session.replace(0, 3, ["x"]);
    session.undo();
    same([session.text, session.state.position, session.command], ["a\nb\nc\n", 2, 1]);
    same([session.state.name, session.state.pages, session.state.files.length], ["a.desk", 8, 1]);
  },
  "changes are taken back also behind a script that was loaded after them"() {
    const session = sessionOf("a\n");
    session.enter(["x"]);
    session.load({ name: "b", text: "b\n" });
    const found = [1, 2, 3].map(() => {
      session.undo();
      return session.text;
    });
    same(found, ["x\na\n", "a\n", ""]);
  },
  "a change leaves all else as it is"() {
    const session = new Session(echo());
    session.change({ name: "a.desk", lines: ["a", "b"], isCut: true, position: 1 });
    const files = [{ name: "f", bytes: Uint8Array.of(1) }];
    for (const change of [{ pages: 8 }, { files }, { name: "b.desk" }]) session.change(change);
    same(session.state,
      { example: "", name: "b.desk", lines: ["a", "b"], isCut: true, position: 1, pages: 8, files });
  },
  "what was taken back is made again, one by one, until another change is made"() {
    const session = sessionOf("a\n", 1);
    for (const pages of [8, 9, 10]) session.change({ pages });
    same([session.canUndo, session.canRedo], [true, false]);
    const found = ["undo", "undo", "redo", "redo", "redo", "undo"].map((move) => {
      session[move]();
      return [session.state.pages, session.canRedo];
    });
    same(found, [[9, true], [8, true], [9, true], [10, false], [10, false], [9, true]]);
    session.back();
    same([session.canRedo, session.state.position], [true, 0]);
    session.change({ pages: 11 });
    same([session.canRedo, session.state.pages], [false, 11]);
  },
  "a session goes on where another one was"() {
    const session = sessionOf("a\nb\n", 1);
    session.change({ pages: 8 });
    session.change({ pages: 9 });
    session.undo();
    const next = new Session(echo());
    next.resume(historyOfText(textOfHistory(session.history)));
    same([next.state, next.replies, next.command], [session.state, ["ok a", "ok b"], 0]);
    const found = ["redo", "undo", "undo", "undo"].map((move) => {
      next[move]();
      return [next.state.pages, next.state.lines.length];
    });
    same(found, [[9, 2], [8, 2], [64, 2], [64, 0]]);
  },
  "a tab keeps lines, files and places of states as they are, each file once"() {
    const file = { name: "f", bytes: Uint8Array.of(0, 255, 10) };
    const text = textOf(Uint8Array.of(0xe9, 0x0a, 0xff, 0xe2, 0x82, 0xac));
    const state = { example: "x", name: "n.desk", ...linesOf(text), position: 1, pages: 9, files: [file] };
    const kept = textOfHistory({ past: [state, { ...state, files: [] }], state, ahead: [state] });
    same(historyOfText(kept), { past: [state, { ...state, files: [] }], state, ahead: [state] });
    same(kept.split("base64").length, 2);
    same([historyOfText(""), historyOfText(null)], [undefined, undefined]);
  },
  "of a long history a tab keeps what is nearest, and of too long a script nothing"() {
    const state = (length) => ({ lines: ["a".repeat(length)], files: [] });
    const found = (past, now, ahead) => {
      const kept = historyOfText(textOfHistory({ past, state: now, ahead }));
      return kept && [kept.past, kept.ahead].map((them) => them.map(({ lines }) => lines[0].length));
    };
    const past = [1, 2, 900000, 3, 4].map(state);
    same(found(past, state(10), [5, 6].map(state)), [[1, 2, 900000, 3, 4], [5, 6]]);
    same(found(past, state(1200000), [5, 6].map(state)), [[3, 4], [5, 6]]);
    same([found(past, state(1999800), []), found(past, state(2000001), [])], [[[3, 4], []], undefined]);
    same(found([], { lines: [], files: [{ name: "f", bytes: new Uint8Array(1600000) }] }, []), undefined);
  },
  "what is asked behind the lines that have run changes nothing"() {
    const desk = echo();
    const session = new Session(desk);
    session.load({ name: "n", text: "a\nb\nc", pages: 8, position: 2 });
    const before = session.history.state;
    same(session.asked("areas"), "ok areas");
    session.moveTo(3);
    session.asked("heap a");
    const asked = desk.asked.slice(-2).map(({ script, pages }) => [script, pages]);
    same(asked, [["a\nb\nareas\n", 8], ["a\nb\nheap a\n", 8]]);
    same(session.replyTo({ lines: ["x", "y"], pages: 9, files: [] }), "ok y");
    same([{ ...before, position: 3 }, desk.asked.at(-1).pages], [session.state, 9]);
  },
  "a step is no change"() {
    const session = sessionOf("a\nb\n");
    session.step();
    session.undo();
    same([session.state.lines, session.canUndo], [[], false]);
  },
  "steps end at the first and at the last line"() {
    const session = sessionOf("# x\na\n# y\nb\n# z\n");
    const found = ["step", "step", "step", "step", "back", "back", "back"].map((move) => {
      session[move]();
      return [session.state.position, session.command];
    });
    same(found, [[2, 1], [4, 3], [5, 3], [5, 3], [2, 1], [0, -1], [0, -1]]);
    same([-1, 9].map((at) => { session.moveTo(at); return session.state.position; }), [0, 5]);
  },
  "lines that come or go before the place move it along, those behind it don't"() {
    same([positionAfter(2, 0, 1, ["x", "y"]), positionAfter(2, 1, 2, []), positionAfter(2, 1, 2, ["x"])], [3, 1, 2]);
    same([positionAfter(2, 2, 3, ["x", "y"]), positionAfter(2, 4, 5, []), positionAfter(2, 2, 2, ["x"])], [2, 2, 3]);
    same([positionAfter(3, 1, 4, ["x"]), positionAfter(3, 1, 4, [])], [2, 1]);
    same(positionAfter(2, 1, 4, ["x", "y", "z"]), 2);
  },
  "a typed line goes in where the script stands, and runs"() {
    const session = sessionOf("a\nb\n", 1);
    session.enter(["x", "y"]);
    same([session.text, session.state.position, session.command], ["a\nx\ny\nb\n", 3, 2]);
  },
  "a last line without an end keeps that until it is changed"() {
    const session = sessionOf("a\nb");
    same(session.replies, ["ok a", "ok b"]);
    session.replace(0, 1, ["x"]);
    same(session.text, "x\nb");
    session.replace(1, 2, ["y"]);
    same(session.text, "x\ny\n");
  },
  "the replies that a change has changed are known until the next step or change"() {
    const session = sessionOf("a\nb\nc\n", 3);
    const changed = () => [...session.changed];
    session.replace(1, 2, ["x"]);
    same(changed(), [1]);
    session.back();
    same(changed(), []);
    session.undo();
    same(changed(), [1]);
    session.enter(["y"]);
    same(changed(), []);
  },
  "a picture is asked for of the last step alone, or of the whole script"() {
    const desk = echo();
    const session = new Session(desk);
    session.load({ name: "n", text: "a\nb\nc\n", pages: 8, position: 2 });
    session.drawn("vf_draw", false);
    session.drawn("vf_draw", true);
    const asked = desk.asked.slice(-2).map(({ script, marked, name, pages }) => [script, marked, name, pages]);
    same(asked, [["a\n#picture\nb\n", 1, "n.desk", 8], ["a\nb\nc\n", 0, "n.desk", 8]]);
  },
  "another script is told, and each change"() {
    const session = new Session(echo());
    const told = [];
    session.onChange(() => told.push("change"));
    session.onLoad(() => told.push("load"));
    session.load({ name: "a", text: "" });
    session.enter(["a"]);
    session.back();
    session.undo();
    same(told, ["change", "load", "change", "change", "change"]);
  },
};

runAll(SESSION_TESTS);
