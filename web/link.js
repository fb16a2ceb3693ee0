// A script in a link: behind its # stand words like `pages=64`, parted by &, with bytes as %XX and a space as +.

import { bytesOf, textOf } from "./bytes.js";

// The characters of a link at most: longer ones are cut by some programs.
const MOST_CHARACTERS = 32000;
const PLAIN = /[A-Za-z0-9._~-]/;

// A byte as it stands in a link.
function spelled(byte) {
  const character = String.fromCharCode(byte);
  if (character === " ") return "+";
  return PLAIN.test(character) ? character : "%" + byte.toString(16).toUpperCase().padStart(2, "0");
}

// A text as it stands in a link.
function encoded(text) {
  return Array.from(bytesOf(text), spelled).join("");
}

// The text that stands in a link so; an error where none does.
function decoded(text) {
  const characters = text.replaceAll("+", "%20").match(/%[0-9A-Fa-f]{2}|[!-$&-~]/g) ?? [];
  const codes = characters.map((it) => it.length > 1 ? parseInt(it.slice(1), 16) : it.charCodeAt(0));
  if (characters.join("") !== text.replaceAll("+", "%20")) throw new Error("no text of a link");
  return textOf(Uint8Array.from(codes));
}

// What stands behind the # of a link, or nothing where that is too long.
export function hashOf({ name, pages, position, text, files }) {
  if (text.length > MOST_CHARACTERS || files.some((file) => file.bytes.length > MOST_CHARACTERS)) return undefined;
  const words = [["name", name], ["pages", String(pages)], ["at", String(position)], ["script", text]];
  for (const file of files) words.push(["file", `${file.name}:${textOf(file.bytes)}`]);
  const hash = words.map(([key, value]) => `${key}=${encoded(value)}`).join("&");
  return hash.length <= MOST_CHARACTERS ? hash : undefined;
}

// What stands behind the # of a link that is the whole of a text, or that part where it is there alone; else nothing.
export function hashIn(text) {
  const [, hash] = /^(?:[^ #]*#)?((?:name|pages|at|script|file)=[!-~]*)$/.exec(text.trim()) ?? [];
  return hash !== undefined && /(?:^|&)script=/.test(hash) ? hash : "";
}

// A file of a link; one without a colon has no name.
function fileOf(value) {
  const colon = value.indexOf(":");
  return { name: value.slice(0, Math.max(0, colon)), bytes: bytesOf(value.slice(colon + 1)) };
}

// What a link holds, or nothing where it holds no script that can be read.
export function readHash(hash) {
  try {
    const words = hash.split("&").map((word) => word.split(/=(.*)/s));
    const values = new Map(words.map(([key, value]) => [key, decoded(value ?? "")]));
    if (!values.has("script")) return undefined;
    return {
      name: values.get("name") ?? "linked.desk",
      pages: Number(values.get("pages") ?? 64),
      position: Number(values.get("at") ?? 0),
      text: values.get("script"),
      files: words.filter(([key]) => key === "file").map(([, value]) => fileOf(decoded(value ?? ""))),
    };
  } catch {
    return undefined;
  }
}
