// Drops a file of a name and bytes in base64, and waits until a frame is shown in which a test holds; where there is
// none, until the page has shown all anew or has told something, as it does when it takes or refuses a file.

(async (name, base64, test) => {
  const bytes = Uint8Array.from(atob(base64), (character) => character.charCodeAt(0));
  const data = new DataTransfer();
  data.items.add(new File([bytes], name));
  let isHeard = false;
  const observer = new MutationObserver(() => isHeard = true);
  observer.observe(document.body, { attributeFilter: ["data-name"] });
  observer.observe(document.querySelector("#notice"), { childList: true });
  dispatchEvent(new DragEvent("drop", { dataTransfer: data, cancelable: true }));
  do await new Promise(requestAnimationFrame); while (!(test ? test() : isHeard));
  observer.disconnect();
  await new Promise(requestAnimationFrame);
})
