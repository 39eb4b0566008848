// The elements of DER, found by picky_der_next in WebAssembly. Its memory has addresses of 64 bits, so pointers are BigInts.
import { END, NO_ROOM, OK } from "./tables.mjs";

const PLACE = 16, ELEMENT = 40, END_SIZE = 8;
// Strings at a depth below this one are opened, as by `der show`.
const DEEPEST = 64;

// The functions of a module, over its memory: first a place and an element, then the bytes, then the ends of elements.
export function load(wasm) {
  const { exports } = new WebAssembly.Instance(new WebAssembly.Module(wasm), {});
  const place = Number(exports.__heap_base.value), element = place + PLACE, start = element + ELEMENT;
  let ends = 0, room = 0;

  // Puts bytes into memory. An element around another takes two bytes, so no more ends than half as many are needed.
  function put(bytes) {
    ends = Math.ceil((start + bytes.length) / END_SIZE) * END_SIZE;
    room = Math.ceil(bytes.length / 2);
    const missing = ends + END_SIZE * room - exports.memory.buffer.byteLength;
    if (missing > 0) exports.memory.grow(BigInt(Math.ceil(missing / 65536)));
    new Uint8Array(exports.memory.buffer).set(bytes, start);
  }

  // Goes over the elements of bytes that are in memory at this index. Calls back with each, and returns the place and the code at the end.
  function walk(at, len, found) {
    const view = () => new DataView(exports.memory.buffer);
    view().setBigUint64(place, 0n, true);
    view().setBigUint64(place + 8, 0n, true);
    for (;;) {
      const code = exports.picky_der_next(BigInt(at), BigInt(len), BigInt(place), BigInt(ends), BigInt(room), BigInt(element));
      const memory = view();
      if (code !== OK) return { code, offset: Number(memory.getBigUint64(place, true)) };
      const [offset, headerLen, contentLen, depth] = [0, 8, 16, 24].map((field) => Number(memory.getBigUint64(element + field, true)));
      const [tag, tagClass, tagNumber, constructed] = [32, 33, 34, 35].map((field) => memory.getUint8(element + field));
      if (found({ offset, headerLen, contentLen, depth, tag, tagClass, tagNumber, isConstructed: constructed !== 0 }) === false) {
        return { code: NO_ROOM, offset };
      }
    }
  }

  // How many bytes of the content are before the DER that a string holds, or -1: one element and nothing else.
  function opening(at, it) {
    const content = at + it.offset + it.headerLen;
    const bytes = new Uint8Array(exports.memory.buffer);
    const skipped = it.tag === 0x04 ? 0 : it.tag === 0x03 && it.contentLen > 0 && bytes[content] === 0 ? 1 : -1;
    if (skipped < 0) return -1;
    let elements = 0;
    const { code } = walk(content + skipped, it.contentLen - skipped, (inner) => {
      elements += inner.depth === 0;
      return elements < 2;
    });
    return code === END && elements === 1 ? skipped : -1;
  }

  // The entries of a listing: elements, and last the rule that is broken, if one is.
  function entries(at, len, offset, depth) {
    const found = [];
    const plain = [];
    const { code, offset: last } = walk(at, len, (it) => plain.push(it) > 0);
    for (const it of plain) {
      const outer = { ...it, offset: it.offset + offset, depth: it.depth + depth, holdsDer: false };
      found.push(outer);
      const skipped = outer.depth < DEEPEST ? opening(at, it) : -1;
      if (skipped < 0) continue;
      outer.holdsDer = true;
      const before = it.offset + it.headerLen + skipped;
      found.push(...entries(at + before, it.contentLen - skipped, before + offset, outer.depth + 1));
    }
    if (code !== END) found.push({ offset: last + offset, rule: code });
    return found;
  }

  return {
    // Lists bytes as `der show` does: elements, also those in strings, up to the first that breaks a rule.
    list(bytes) {
      put(bytes);
      return entries(start, bytes.length, 0, 0);
    },
    // Whether the bytes begin with the header of an element that takes all of them.
    isElement(bytes) {
      put(bytes);
      let len = -1;
      walk(start, bytes.length, (it) => {
        len = it.headerLen + it.contentLen;
        return false;
      });
      return len === bytes.length;
    },
  };
}
