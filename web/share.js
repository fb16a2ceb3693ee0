// Saving, and handing on: files that the page gives to the user, and links.

import { bytesOf } from "./bytes.js";
import { Refusal } from "./desk.js";
import { hashOf } from "./link.js";

// So long a file stays there for the browser to take.
const TAKEN_MS = 60000;
const ON_THE_WEB = ["http:", "https:"];
const TOO_LONG = "The script and its files are too long for a link. Save the script instead.";
const COPIED = "The link is copied. It holds the script, its files and its pages.";
// A page from disk has no address that others could open.
const COPIED_END = "Copied: the end of a link. Put it behind the address of any copy of this page, or enter it as a "
  + "command there.";

// Gives bytes to the user as a file.
function give(name, bytes, type) {
  const link = document.createElement("a");
  link.href = URL.createObjectURL(new Blob([bytes], { type }));
  link.download = name;
  link.click();
  setTimeout(() => URL.revokeObjectURL(link.href), TAKEN_MS);
}

// Puts what stands behind the # of a link into the page's own, where it has one that can be changed.
function takeHash(hash) {
  try {
    history.replaceState(null, "", `#${hash}`);
  } catch (fault) {
    console.info(fault.message);
  }
}

export class Share {
  #session;
  #notice;

  constructor(session, notice) {
    this.#session = session;
    this.#notice = notice;
  }

  saveScript() {
    give(this.#session.state.name, bytesOf(this.#session.text), "application/octet-stream");
  }

  saveSheet() {
    try {
      give(this.#session.state.name.replace(/desk$/, "html"), this.#session.drawn("vf_draw", true), "text/html");
    } catch (fault) {
      if (!(fault instanceof Refusal)) throw fault;
      this.#notice.tellFault(fault.message);
    }
  }

  // Copies a link to the script, or its end where the page has no address that others could open.
  copyLink() {
    const hash = hashOf({ ...this.#session.state, text: this.#session.text });
    if (hash === undefined) {
      this.#notice.tellFault(TOO_LONG);
      return;
    }
    takeHash(hash);
    const isOnTheWeb = ON_THE_WEB.includes(location.protocol);
    this.#copy(isOnTheWeb ? location.href : `#${hash}`, isOnTheWeb ? COPIED : COPIED_END,
      isOnTheWeb ? "This is the link; it is in the address bar too:" : "This is the end of a link:");
  }

  copyText() {
    this.#copy(this.#session.text, "The script is copied as text.", "This is the script:");
  }

  // Copies a text, or shows it where the browser doesn't allow that.
  async #copy(text, copied, shown) {
    try {
      await navigator.clipboard.writeText(text);
      this.#notice.tell(copied);
    } catch {
      const field = document.createElement("textarea");
      Object.assign(field, { value: text, readOnly: true, rows: 1, ariaLabel: "What can be copied by hand" });
      this.#notice.tell(shown, field);
      field.select();
    }
  }
}
