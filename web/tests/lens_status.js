// What the vf_lens of a module gives for each of some sizes, over a script with a name and 64 pages: its status, the
// length that it tells, and what it writes. At first the length is 7, and nothing is written.

(async (module, script, name, sizes) => {
  const [PAGES, PAGE_BYTES, LISTS, TEXT_BYTES, NOTHING, LENGTH] = [64, 4096, 71, 1 << 20, 255, 7n];
  const bytesOf = (text) => Uint8Array.from(text, (character) => character.charCodeAt(0));
  const { instance } = await WebAssembly.instantiate(bytesOf(atob(module)));
  const { memory, __heap_base: base, vf_lens: lens } = instance.exports;
  const lent = { script: bytesOf(script), name: bytesOf(name) };
  const [pool, numbers] = [PAGES * PAGE_BYTES, PAGES * LISTS * 2];
  const counts = { pool, numbers, script: script.length, name: name.length, text: TEXT_BYTES, needed: 8 };
  const places = {};
  let end = Number(base.value);
  for (const [it, count] of Object.entries(counts)) {
    places[it] = Math.ceil(end / 16) * 16;
    end = places[it] + count;
  }
  memory.grow(BigInt(Math.max(0, Math.ceil((end - memory.buffer.byteLength) / 65536))));
  for (const [it, bytes] of Object.entries(lent)) new Uint8Array(memory.buffer).set(bytes, places[it]);
  const buffer = (it, count = counts[it]) => [BigInt(places[it]), BigInt(count)];
  const given = [...buffer("pool"), ...buffer("numbers", PAGES * LISTS), ...buffer("script"), ...buffer("name"),
    ...buffer("name", 0)];
  return sizes.map(([width, scale]) => {
    const text = new Uint8Array(memory.buffer, places.text, TEXT_BYTES).fill(NOTHING);
    const needed = new DataView(memory.buffer, places.needed, 8);
    needed.setBigUint64(0, LENGTH, true);
    const status = lens(PAGES, ...given, 0, width, scale, ...buffer("text"), BigInt(places.needed));
    const written = text.slice(0, text.findLastIndex((it) => it !== NOTHING) + 1);
    return [status, Number(needed.getBigUint64(0, true)), new TextDecoder().decode(written)];
  });
})
