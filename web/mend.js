// Lines of other editors and systems: what parts no words in a script, though it looks as if it did.

import { linesOf } from "./script.js";

// A remark, also behind a mark of its encoding.
const MARKED_REMARK = /^[\ufeff ]*#/;
// The first of these shows that a line of a script has to be looked at.
const ODD = /[\r\t\u00a0\ufeff\u2012-\u2015\u2212]/;

// A line as it was meant: without a mark of its encoding or a carriage return at its end; tabs and hard spaces are
// spaces, and long dashes are short ones. A remark keeps its words.
export function mended(line) {
  const bare = line.replace(/^\ufeff/, "").replace(/\r+$/, "");
  if (MARKED_REMARK.test(bare)) return bare;
  return bare.replace(/[\r\t\u00a0]/g, " ").replace(/[\u2012-\u2015\u2212]/g, "-");
}

// The lines of a script as they were meant, and how many of them that changes.
export function mendedLines(lines) {
  const meant = lines.map((line) => ODD.test(line) ? mended(line) : line);
  return { lines: meant, count: meant.filter((line, at) => line !== lines[at]).length };
}

// What is odd about a script that was opened, in words, or an empty text.
export function oddities(text) {
  if (!ODD.test(text)) return "";
  const { count } = mendedLines(linesOf(text).lines);
  if (!count) return "";
  const found = [["\r", "line ends of Windows"], ["\t", "tabs"], ["\u00a0", "hard spaces"],
    ["\ufeff", "a mark of its encoding"]].filter(([sign]) => text.includes(sign)).map(([, name]) => name);
  const what = found.length ? found.join(" and ") : "long dashes";
  return `${count} ${count === 1 ? "line has" : "lines have"} ${what}, which part no words in a script.`;
}
