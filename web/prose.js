// A paragraph of a document as elements: words in backquotes are code, and words in stars stand out.

const PART = /`([^`]+)`|\*\*([^*]+)\*\*|\*([^*]+)\*/g;
const TAGS = ["code", "strong", "em"];

// An element with a class and a text.
export function element(tag, className = "", text = "") {
  const made = document.createElement(tag);
  if (className) made.className = className;
  made.textContent = text;
  return made;
}

// What stands in a paragraph, as a list of texts and elements.
export function partsOfParagraph(text) {
  const parts = [];
  let end = 0;
  for (const match of text.matchAll(PART)) {
    const at = match.slice(1).findIndex((it) => it !== undefined);
    parts.push(text.slice(end, match.index), element(TAGS[at], "", match[at + 1]));
    end = match.index + match[0].length;
  }
  return [...parts, text.slice(end)];
}
