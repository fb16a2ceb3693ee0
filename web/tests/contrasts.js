// The texts that are seen, on the page and in its picture, whose contrast to what is behind them is too little.

((least) => {
  const UNSEEN = ["title", "desc", "style", "script", "option", "optgroup"];
  const UNPAINTED = ["text", "use", "g", "svg"];
  const canvas = document.createElement("canvas").getContext("2d", { willReadFrequently: true });

  // The parts of each colour that was painted before: painting is dear.
  const painted = new Map();

  // Red, green, blue and how opaque, each up to 255, as a canvas paints the colour.
  function paint(colour) {
    canvas.clearRect(0, 0, 1, 1);
    canvas.fillStyle = colour;
    canvas.fillRect(0, 0, 1, 1);
    return [...canvas.getImageData(0, 0, 1, 1).data];
  }

  function parts(colour) {
    if (!painted.has(colour)) painted.set(colour, paint(colour));
    return painted.get(colour);
  }

  // The luminance of a part of a colour, and of a colour, as the Web Content Accessibility Guidelines define them.
  const linear = (part) => part <= 10.31475 ? part / 3294.6 : ((part / 255 + 0.055) / 1.055) ** 2.4;
  const luminance = ([red, green, blue]) => 0.2126 * linear(red) + 0.7152 * linear(green) + 0.0722 * linear(blue);

  function contrast(one, other) {
    const [low, high] = [luminance(one), luminance(other)].sort((left, right) => left - right);
    return (high + 0.05) / (low + 0.05);
  }

  // The colour of the page behind an element.
  function colourBehind(element) {
    for (let it = element; it; it = it.parentElement ?? it.getRootNode().host) {
      const colour = parts(getComputedStyle(it).backgroundColor);
      if (colour[3] === 255) return colour;
    }
    return [255, 255, 255, 255];
  }

  const isFigure = (element) => element.namespaceURI.endsWith("svg");
  const isPainted = (element) => isFigure(element) && !UNPAINTED.includes(element.localName)
    && getComputedStyle(element).fill.startsWith("rgb");

  // The colour of the shape under the middle of a figure's text, or of the page.
  function colourUnder(text, tree) {
    text.scrollIntoView({ block: "center", inline: "center" });
    const { left, top, width, height } = text.getBoundingClientRect();
    const shape = tree.elementsFromPoint(left + width / 2, top + height / 2).find(isPainted);
    return shape ? parts(getComputedStyle(shape).fill) : colourBehind(text);
  }

  function isSeen(element) {
    const hasText = [...element.childNodes].some((node) => node.nodeType === Node.TEXT_NODE && node.data.trim());
    const hasValue = element.value && element.type !== "range";
    return (hasText || hasValue) && element.checkVisibility() && !element.ariaDisabled
      && !UNSEEN.includes(element.localName) && !element.closest(".unseen, pattern, defs");
  }

  function contrastOf(element, tree) {
    const style = getComputedStyle(element);
    return isFigure(element)
      ? contrast(parts(style.fill), colourUnder(element, tree))
      : contrast(parts(style.color), colourBehind(element));
  }

  // The faults of a tree of elements, and of the trees within.
  function faultsOf(tree) {
    return [...tree.querySelectorAll("*")].flatMap((element) => {
      const inside = element.shadowRoot ? faultsOf(element.shadowRoot) : [];
      const found = isSeen(element) ? contrastOf(element, tree) : Infinity;
      const name = `${element.localName}.${element.getAttribute("class")} ${element.textContent.slice(0, 20)}`;
      return found < least ? [...inside, `${name}: ${found.toFixed(2)}`] : inside;
    });
  }

  return [...new Set(faultsOf(document))];
})
