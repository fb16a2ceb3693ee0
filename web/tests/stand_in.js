// Stands in for instance.js in tests: calls that a module doesn't have are done by the native program, which the tests'
// server runs. Where there is no module at all, there is a memory alone.

// The status of a call whose text is longer than its room.
const CUT = 4;

// The bytes of a buffer that a call was given.
function slice(memory, place, length) {
  return new Uint8Array(memory.buffer, Number(place), Number(length));
}

// What the server answers: a status, and bytes.
function posted(path, content) {
  const request = new XMLHttpRequest();
  request.open("POST", path, false);
  request.overrideMimeType("text/plain; charset=x-user-defined");
  request.send(content);
  const bytes = Uint8Array.from(request.responseText, (character) => character.charCodeAt(0) & 0xff);
  return { status: Number(request.getResponseHeader("Desk-Status")), bytes };
}

// What the server says of a job.
function asked(verb, { pages, name, marked, script, files, lens = 0 }) {
  const spelled = new TextDecoder().decode(name);
  const words = new URLSearchParams({ pages, marked, lens, name: spelled, script: script.length });
  return posted(`/${verb}?${words}`, new Blob([script, files]));
}

// What the server says of bytes as a heap or as a slot.
function checked(kind, image) {
  return posted(`/check?${new URLSearchParams({ kind: ["heap", "slot"][kind] })}`, new Blob([image]));
}

// Writes what the native program has said as a module does.
function written(memory, { status, bytes }, text, textLength, needed) {
  new DataView(memory.buffer).setBigUint64(Number(needed), BigInt(bytes.length), true);
  if (bytes.length > Number(textLength)) return CUT;
  slice(memory, text, bytes.length).set(bytes);
  return status;
}

// The calls of a module, done by the native program over a memory.
function nativeCalls(memory) {
  const at = (place, length) => slice(memory, place, length);
  return {
    vf_run: (pages, pool, poolLength, numbers, numbersLength, script, scriptLength, files, filesLength, text,
      textLength, needed) =>
      written(memory, asked("run", {
        pages, name: new Uint8Array(), marked: 0, script: at(script, scriptLength), files: at(files, filesLength),
      }), text, textLength, needed),
    vf_map: (pages, pool, poolLength, numbers, numbersLength, script, scriptLength, files, filesLength, marked, text,
      textLength, needed) =>
      written(memory, asked("map", {
        pages, name: new Uint8Array(), marked, script: at(script, scriptLength), files: at(files, filesLength),
      }), text, textLength, needed),
    vf_draw: (pages, pool, poolLength, numbers, numbersLength, script, scriptLength, name, nameLength, files,
      filesLength, marked, text, textLength, needed) =>
      written(memory, asked("draw", {
        pages, name: at(name, nameLength), marked, script: at(script, scriptLength), files: at(files, filesLength),
      }), text, textLength, needed),
    // The program's lens has a size of its own.
    vf_lens: (pages, pool, poolLength, numbers, numbersLength, script, scriptLength, name, nameLength, files,
      filesLength, marked, width, scale, text, textLength, needed) =>
      written(memory, asked("draw", {
        pages, name: at(name, nameLength), marked, script: at(script, scriptLength), files: at(files, filesLength),
        lens: 1,
      }), text, textLength, needed),
    vf_check: (kind, image, imageLength, text, textLength, needed) =>
      written(memory, checked(kind, at(image, imageLength)), text, textLength, needed),
  };
}

// A call that notes how wide and large the lens is that it was asked for, where tests find it.
function notingLens(call) {
  const noted = (...words) => {
    const [width, scale] = words.slice(-5, -3);
    globalThis.lastLens = { width, scale };
    return call(...words);
  };
  return Object.defineProperty(noted, "length", { value: call.length });
}

// The same calls, with the text that vf_run wrote last, and the size of the last lens, where tests find them.
function recording(calls) {
  const run = calls.vf_run;
  const recorded = (...words) => {
    const status = run(...words);
    const [text, , needed] = words.slice(-3);
    const length = new DataView(calls.memory.buffer).getBigUint64(Number(needed), true);
    globalThis.lastStatus = status;
    globalThis.lastText = status <= 1 ? new TextDecoder("latin1").decode(slice(calls.memory, text, length)) : "";
    return status;
  };
  const lens = calls.vf_lens ? { vf_lens: notingLens(calls.vf_lens) } : {};
  return { ...calls, ...lens, vf_run: Object.defineProperty(recorded, "length", { value: run.length }) };
}

// What a page without a module runs on.
function memoryAlone() {
  return { memory: new WebAssembly.Memory({ address: "i64", initial: 1n }), __heap_base: { value: 0n } };
}

export async function instantiator(bytes) {
  const module = bytes.length ? await WebAssembly.compile(bytes) : undefined;
  return () => {
    const exports = module ? { ...new WebAssembly.Instance(module).exports } : memoryAlone();
    const byProgram = nativeCalls(exports.memory);
    // A page from disk has no server.
    const calls = { ...location.protocol === "file:" ? {} : byProgram, ...exports };
    return recording(calls);
  };
}
