// The help: each form of a command with what it does and what its words are, and each refusal; what is sought alone.

import { element } from "./prose.js";
import { GROUPS, REFUSALS_TOLD } from "./words.js";

// One entry: a term in code, what it means, its words, and what else is told of it.
function entryOf(term, says, words = [], others = []) {
  const root = element("div");
  const name = element("dt");
  const meaning = element("dd", "", says);
  name.append(element("code", "", term));
  for (const [word, about] of words) {
    const line = element("span", "kind", ` ${about}`);
    line.prepend(element("code", "", word));
    meaning.append(line);
  }
  meaning.append(...others.map((it) => element("span", "kind", it)));
  root.append(name, meaning);
  return root;
}

function entryOfForm({ form, says, words, about, refusals }) {
  const refused = refusals.length ? [`Refused: ${refusals.join(", ")}`] : [];
  return entryOf(form, says, words.map((word, at) => [word, about[at]]).filter(([, told]) => told), refused);
}

function groupOf(label, entries) {
  const root = element("section");
  const list = element("dl");
  list.append(...entries);
  root.append(element("h3", "", label), list);
  return root;
}

export class Help {
  #root;
  #none;

  // Of the element in which it stands, the field in which something is sought, and what tells that nothing is found.
  constructor(root, field, none) {
    this.#root = root;
    this.#none = none;
    const refusals = REFUSALS_TOLD.map(([name, says]) => entryOf(name, says));
    root.append(...GROUPS.map(({ label, forms }) => groupOf(label, forms.map(entryOfForm))));
    root.append(groupOf("Refusals: a command that is refused changes nothing", refusals));
    field.addEventListener("input", () => this.#seek(field.value.trim().toLowerCase()));
  }

  #seek(sought) {
    for (const entry of this.#root.querySelectorAll("dl > div")) {
      entry.hidden = !entry.textContent.toLowerCase().includes(sought);
    }
    const groups = [...this.#root.children];
    for (const group of groups) group.hidden = !group.querySelector("dl > div:not([hidden])");
    this.#none.hidden = groups.some((group) => !group.hidden);
  }
}
