// What lies over the page until it is closed, and which pane a narrow page shows.

export class Panels {
  #panels;

  // Of panels, each with its button, the button that closes it, and what has the focus in it first.
  constructor(panels) {
    this.#panels = panels;
    for (const it of panels) {
      it.button.addEventListener("click", () => this.toggle(it.panel.id));
      it.close.addEventListener("click", () => this.close());
    }
    addEventListener("click", (event) => this.#onClick(event));
  }

  // The panel that is open, if any.
  get #open() {
    return this.#panels.find(({ panel }) => !panel.hidden);
  }

  get isOpen() {
    return this.#open !== undefined;
  }

  // Opens a panel, or closes it; the other one is closed.
  toggle(id) {
    for (const it of this.#panels) {
      const isOpen = it.panel.id === id && it.panel.hidden;
      it.panel.hidden = !isOpen;
      it.button.ariaExpanded = String(isOpen);
      if (isOpen) it.first?.focus();
    }
  }

  // Closes the panel that is open; its button has the focus then.
  close() {
    const open = this.#open;
    if (!open) return;
    this.toggle("");
    open.button.focus();
  }

  // A click elsewhere closes what is open, and does what it does there.
  #onClick({ target }) {
    const open = this.#open;
    const isElsewhere = open && target.isConnected && !open.panel.contains(target) && !open.button.contains(target);
    if (isElsewhere) this.toggle("");
  }
}

// Lets buttons choose which pane is seen where there is room for one.
export function listenToPanes(nav, onChange) {
  const buttons = [...nav.querySelectorAll("button")];
  const show = (pane) => {
    document.body.dataset.pane = pane;
    for (const button of buttons) button.ariaPressed = String(button.value === pane);
  };
  for (const button of buttons) {
    button.addEventListener("click", () => {
      show(button.value);
      onChange();
    });
  }
  show(buttons[0].value);
}
