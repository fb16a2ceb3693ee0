// What has the focus, by its id, its name, or its text; also within the picture.

(() => {
  let element = document.activeElement;
  while (element.shadowRoot?.activeElement) element = element.shadowRoot.activeElement;
  const text = element.closest("label, button")?.textContent.trim();
  return element.id || element.ariaLabel || text || element.localName;
})
