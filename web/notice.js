// What is told to the user, in one place of the page.

export class Notice {
  #root;

  constructor(root) {
    this.#root = root;
  }

  // Tells of something, with what can be done about it, if anything.
  tell(message, ...others) {
    this.#root.replaceChildren(message, ...others);
    this.#root.classList.remove("fault");
  }

  // Tells of a fault; an empty text takes away what was told.
  tellFault(message) {
    this.tell(message);
    this.#root.classList.add("fault");
  }
}
