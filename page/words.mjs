// What `der show` prints of an element.
import { NAMES, RULES } from "./tables.mjs";

const TYPES = [
  "", "BOOLEAN", "INTEGER", "BIT STRING", "OCTET STRING", "NULL", "OBJECT IDENTIFIER", "ObjectDescriptor", "EXTERNAL", "REAL", "ENUMERATED",
  "EMBEDDED PDV", "UTF8String", "RELATIVE-OID", "TIME", "", "SEQUENCE", "SET", "NumericString", "PrintableString", "TeletexString",
  "VideotexString", "IA5String", "UTCTime", "GeneralizedTime", "GraphicString", "VisibleString", "GeneralString", "UniversalString",
  "CHARACTER STRING", "BMPString",
];
const CLASSES = ["UNIVERSAL ", "APPLICATION ", "", "PRIVATE "];
const KEY_USAGE = ["digitalSignature", "nonRepudiation", "keyEncipherment", "dataEncipherment", "keyAgreement", "keyCertSign", "cRLSign", "encipherOnly", "decipherOnly"];

// The type of X.680 with this tag, or the class and the number.
export const typeOf = (it) => (it.tagClass === 0 && TYPES[it.tagNumber]) || `[${CLASSES[it.tagClass]}${it.tagNumber}]`;

export const hex = (bytes) => Array.from(bytes, (it) => it.toString(16).toUpperCase().padStart(2, "0")).join("");

// Characters that end a line, or move or hide others, are written as the bytes of their UTF-8.
const DISRUPTIVE = /[\u0000-\u001F\u007F-\u009F\u061C\u200B-\u200F\u2028-\u202E\u2060-\u2069\uFEFF]/gu;
const onOneLine = (text) => text.replace(DISRUPTIVE, (it) => hex(new TextEncoder().encode(it)).replace(/../g, "\\$&"));
const quoted = (text) => `'${onOneLine(text.replace(/['\\]/g, "\\$&"))}'`;

function utf8(bytes) {
  try {
    return quoted(new TextDecoder("utf-8", { fatal: true, ignoreBOM: true }).decode(bytes));
  } catch {
    return hex(bytes);
  }
}

const printable = (bytes) => (bytes.length > 0 && bytes.every((it) => it >= 0x20 && it <= 0x7E) ? utf8(bytes) : hex(bytes));

// A text with so many bytes for each character.
function wide(bytes, width) {
  const codes = [];
  for (let at = 0; at < bytes.length; at += width) codes.push(bytes.slice(at, at + width).reduce((sum, it) => sum * 256 + it, 0));
  const fine = bytes.length % width === 0 && codes.every((it) => it < 0xD800 || (it > 0xDFFF && it <= 0x10FFFF));
  return fine ? quoted(codes.map((it) => String.fromCodePoint(it)).join("")) : hex(bytes);
}

function integer(bytes) {
  const padded = bytes.length > 1 && ((bytes[0] === 0 && bytes[1] < 128) || (bytes[0] === 255 && bytes[1] > 127));
  if (bytes.length === 0 || bytes.length > 16 || padded) return hex(bytes);
  return String(BigInt.asIntN(8 * bytes.length, BigInt(`0x${hex(bytes)}`)));
}

// The numbers in base 128, or null if one has no end or is above 64 bits.
function numbers(bytes, most) {
  const found = [];
  let number = 0n;
  for (const it of bytes) {
    number = number * 128n + BigInt(it & 127);
    if (it < 128) {
      if (number > most) return null;
      found.push(number);
      number = 0n;
    }
  }
  return found;
}

function identifier(bytes) {
  const [first, ...others] = numbers(bytes, 2n ** 64n + 79n) ?? [];
  const top = first < 80n ? first / 40n : 2n;
  const arcs = [top, first - 40n * top, ...others];
  if (first === undefined || arcs.some((it) => it >= 2n ** 64n)) return `#${hex(bytes)}`;
  const name = NAMES[hex(bytes)];
  return name ? `${name} (${arcs.join(".")})` : arcs.join(".");
}

function relative(bytes) {
  const arcs = numbers(bytes, 2n ** 64n - 1n);
  return arcs ? arcs.join(".") : hex(bytes);
}

function time(bytes, century) {
  const text = new TextDecoder("latin1").decode(bytes);
  const digits = century(text) + text;
  if (!/^\d{14}Z$/.test(digits)) return printable(bytes);
  const [, year, month, day, hour, minute, second] = digits.match(/(....)(..)(..)(..)(..)(..)/);
  return `${year}-${month}-${day}T${hour}:${minute}:${second}Z`;
}

function bits(bytes, isKeyUsage) {
  const [unused, ...values] = bytes;
  if (unused === undefined) return "";
  if (bytes.length > 3) return hex(values) + (unused ? `, ${unused} unused bits` : "");
  const digits = values.map((it) => it.toString(2).padStart(8, "0")).join("");
  const names = isKeyUsage ? KEY_USAGE.filter((_, number) => digits[number] === "1").map((it) => ` ${it}`) : [];
  return `'${digits.slice(0, digits.length - unused)}'B${names.join("")}`;
}

// The value of a primitive element, or an empty text.
export function valueOf(it, bytes, isKeyUsage) {
  if (it.isConstructed) return "";
  if (it.tagClass !== 0) return printable(bytes);
  switch (it.tagNumber) {
    case 1: return bytes[0] === 0 ? "FALSE" : "TRUE";
    case 2: case 10: return integer(bytes);
    case 3: return bits(bytes, isKeyUsage);
    case 6: return identifier(bytes);
    case 13: return relative(bytes);
    case 23: return time(bytes, (text) => (text < "50" ? "20" : "19"));
    case 24: return time(bytes, () => "");
    case 7: case 12: case 18: case 19: case 21: case 22: case 25: case 26: case 27: return utf8(bytes);
    case 14: return printable(bytes);
    case 20: return quoted(Array.from(bytes, (code) => String.fromCharCode(code)).join(""));
    case 28: return wide(bytes, 4);
    case 30: return wide(bytes, 2);
    default: return hex(bytes);
  }
}

// The offset of the bits of the extension keyUsage, if its identifier is at this offset.
export function keyUsageAfter(bytes, offset) {
  const text = hex(bytes.slice(offset, offset + 16));
  const found = text.match(/^0603551D0F(0101FF)?04(8.)?/);
  return found ? offset + found[0].length / 2 + (found[2] ? Number(found[2][1]) : 1) : -1;
}

// The columns of an entry, and then its words.
export function lineOf(it, words) {
  const column = (text, size) => String(text).padEnd(size);
  if (it.rule) return `${String(it.offset).padStart(6)} not DER: ${words}`;
  const form = it.isConstructed ? "cons" : "prim";
  const indent = "  ".repeat(Math.min(it.depth, 64));
  return `${String(it.offset).padStart(6)} d=${column(it.depth, 2)} hl=${column(it.headerLen, 2)} l=${column(it.contentLen, 6)} ${form} ${indent}${words}`;
}

// What is said of an entry: the type and the value of an element, or the rule with its clause.
export function wordsOf(it, bytes, isKeyUsage) {
  if (it.rule) {
    const [words, clause] = RULES[it.rule] ?? [`code ${it.rule}`, "8"];
    return `${words} (X.690, ${clause})`;
  }
  if (it.holdsDer) return typeOf(it);
  const start = it.offset + it.headerLen;
  const value = valueOf(it, bytes.slice(start, start + it.contentLen), isKeyUsage);
  return typeOf(it) + (value && ` ${value}`);
}
