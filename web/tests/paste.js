// Pastes a text into what a selector finds, and gives whether the browser is left to put it in.

((selector, text) => {
  const data = new DataTransfer();
  data.setData("text/plain", text);
  const paste = new ClipboardEvent("paste", { clipboardData: data, bubbles: true, cancelable: true });
  return document.querySelector(selector).dispatchEvent(paste);
})
