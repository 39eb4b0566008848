// What is pasted, dropped or opened: DER, PEM, base64 or hexadecimal digits. What can't be read is a text that says why.

export const fromBase64 = (text) => Uint8Array.from(atob(text.replace(/\s+/g, "")), (it) => it.charCodeAt(0));
const fromDigits = (digits) => Uint8Array.from(digits.match(/../g), (it) => parseInt(it, 16));

// The blocks of PEM (RFC 7468), each with its label.
function blocksIn(text) {
  const blocks = [...text.matchAll(/-----BEGIN ([^\r\n]*?)-----([^-]*)-----END \1-----/g)];
  try {
    return blocks.map((it) => ({ label: it[1], bytes: fromBase64(it[2]) }));
  } catch {
    return "A block of PEM isn't base64.";
  }
}

// The messages in a text.
export function messagesInText(text) {
  if (text.includes("-----BEGIN ")) {
    const blocks = blocksIn(text);
    return blocks.length ? blocks : "A block of PEM has no end, or has headers.";
  }
  const plain = text.replace(/[\s:]+/g, "");
  if (!plain) return "";
  if (/^([0-9a-f]{2})+$/i.test(plain)) return [{ label: "", bytes: fromDigits(plain) }];
  try {
    return [{ label: "", bytes: fromBase64(text) }];
  } catch {
    return "This is neither PEM nor base64 nor hexadecimal digits.";
  }
}

// The messages in a file. One that is an element to its end is DER, whatever is in it, and so is one that is no text.
export function messagesInFile(bytes, isElement) {
  const isText = bytes.every((it) => it > 31 && it < 127 || [9, 10, 12, 13].includes(it));
  return isText && !isElement(bytes) ? messagesInText(new TextDecoder("latin1").decode(bytes)) : [{ label: "", bytes }];
}
