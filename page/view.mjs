// The page: what is given, and a pane of lines beside a pane of bytes for each message.
import { load } from "./walk.mjs";
import { hex, keyUsageAfter, lineOf, typeOf, wordsOf } from "./words.mjs";
import { fromBase64, messagesInFile, messagesInText } from "./input.mjs";

// At most so many lines and bytes of a message are shown; all of it is checked.
const MOST_LINES = 20000, MOST_BYTES = 32768, EACH_ROW = 16;
// A certificate of its own key.
const EXAMPLE = [
  "MIIBnTCCAU+gAwIBAgIUf/1diSlWRY4XP/eWJpzmE4E2J40wBQYDK2VwMC8xCzAJBgNVBAYTAlNFMRAwDgYDVQQKDAdFeGFtcGxlMQ4wDAYDVQQDDAVBbGljZTAeFw0yNjExMzAwNDQ2",
  "MDZaFw0zNjExMjcwNDQ2MDZaMC8xCzAJBgNVBAYTAlNFMRAwDgYDVQQKDAdFeGFtcGxlMQ4wDAYDVQQDDAVBbGljZTAqMAUGAytlcAMhABZTqsi15kZSLoAPZGeoagWo72O9adnIReVd",
  "OTbGV2VPo30wezAdBgNVHQ4EFgQURaqLux3Hqoz6Kyp18zo5HW0n9p4wHwYDVR0jBBgwFoAURaqLux3Hqoz6Kyp18zo5HW0n9p4wDwYDVR0TAQH/BAUwAwEB/zAOBgNVHQ8BAf8EBAMC",
  "AoQwGAYDVR0RBBEwD4INYWxpY2UuZXhhbXBsZTAFBgMrZXADQQDQIDvMrK1d1vg6EpJ9DFh0ZoQQPiBVdwX834gDo29cAv99HcNbtTTWULHQDXhb93LPzXe8SbVk9Wgum2JbLB0P",
].join("");

function made(name, kind, ...content) {
  const it = document.createElement(name);
  if (kind) it.className = kind;
  it.append(...content);
  return it;
}

// The bytes in rows of hexadecimal digits, and the span of each byte.
function bytesPane(bytes) {
  const pane = made("div", "bytes"), spans = [];
  for (let at = 0; at < Math.min(bytes.length, MOST_BYTES); at += EACH_ROW) {
    const row = Array.from(bytes.subarray(at, at + EACH_ROW), (it) => made("span", "", hex([it])));
    spans.push(...row);
    pane.append(made("div", "row", made("span", "at", `${String(at).padStart(6)}  `), ...row.flatMap((it, number) => (number ? [" ", it] : [it]))));
  }
  if (bytes.length > MOST_BYTES) pane.append(made("div", "left", `${bytes.length - MOST_BYTES} more bytes`));
  return { pane, spans };
}

// Lights up a line and its bytes, those of its header more.
function lightOf(row, spans, it) {
  const content = it.rule ? it.offset + 1 : it.offset + it.headerLen, end = it.rule ? content : content + it.contentLen;
  return (on) => {
    row.classList.toggle("lit", on);
    spans.slice(it.offset, content).forEach((span) => span.classList.toggle("head", on));
    spans.slice(content, end).forEach((span) => span.classList.toggle("lit", on));
  };
}

// A line for each entry, which lights up together with its bytes.
function linesPane(entries, bytes, spans) {
  const pane = made("div", "lines");
  let keyUsage = -1;
  for (const it of entries.slice(0, MOST_LINES)) {
    const words = wordsOf(it, bytes, it.offset === keyUsage);
    const after = keyUsageAfter(bytes, it.offset);
    if (after >= 0) keyUsage = after;
    const type = it.rule ? "" : typeOf(it), whole = lineOf(it, words);
    const row = made("div", it.rule ? "line broken" : "line", made("span", "front", whole.slice(0, whole.length - words.length)));
    row.append(made("span", "type", type), words.slice(type.length));
    const light = lightOf(row, spans, it);
    const near = spans.slice(it.offset, it.offset + (it.rule ? 1 : it.headerLen + (it.isConstructed || it.holdsDer ? 0 : it.contentLen)));
    row.onclick = () => spans[it.offset]?.scrollIntoView({ block: "nearest" });
    for (const span of near) span.onclick = () => row.scrollIntoView({ block: "nearest" });
    for (const each of [row, ...near]) {
      each.onmouseenter = () => light(true);
      each.onmouseleave = () => light(false);
    }
    pane.append(row);
  }
  if (entries.length > MOST_LINES) pane.append(made("div", "left", `${entries.length - MOST_LINES} more lines`));
  return pane;
}

function messageOf(label, bytes, entries) {
  const { pane, spans } = bytesPane(bytes);
  return [made("h2", "", label), made("div", "panes", linesPane(entries, bytes, spans), pane)];
}

// What was found in all messages, in a line.
function summary(found) {
  const count = found.reduce((sum, it) => sum + it.entries.filter((entry) => !entry.rule).length, 0);
  const broken = found.filter((it) => it.entries.some((entry) => entry.rule)).length;
  const of = found.length > 1 ? ` in ${found.length} messages` : "";
  return { text: `${count} elements${of}: ${broken ? (found.length > 1 ? `${broken} aren't DER` : "not DER") : "all is DER"}`, wrong: broken > 0 };
}

// Starts the page with the module in base64.
export function start(wasm) {
  const [said, messages, text] = ["said", "messages", "text"].map((id) => document.getElementById(id));
  const say = (words, wrong) => {
    said.textContent = words;
    said.className = wrong ? "wrong" : "";
  };
  let walks;
  try {
    walks = load(fromBase64(wasm));
  } catch (error) {
    say(`This browser has no WebAssembly with 64-bit memory, so nothing can be shown. Chromium 133 and Firefox 134 have it. (${error.message})`, true);
    return;
  }
  const show = (given) => {
    messages.replaceChildren();
    if (typeof given === "string") return say(given, given !== "");
    try {
      const found = given.map((it) => ({ ...it, entries: walks.list(it.bytes) }));
      for (const it of found) messages.append(...messageOf(it.label, it.bytes, it.entries));
      const { text: words, wrong } = summary(found);
      say(words, wrong);
    } catch (error) {
      say(`This can't be shown: ${error.message}`, true);
    }
  };
  const open = async (file) => file && show(messagesInFile(new Uint8Array(await file.arrayBuffer()), walks.isElement));
  text.oninput = () => show(messagesInText(text.value));
  document.getElementById("file").onchange = (event) => open(event.target.files[0]);
  document.getElementById("example").onclick = () => {
    text.value = `-----BEGIN CERTIFICATE-----\n${EXAMPLE.match(/.{1,64}/g).join("\n")}\n-----END CERTIFICATE-----`;
    text.oninput();
  };
  document.body.ondragover = (event) => {
    event.preventDefault();
    document.body.classList.add("over");
  };
  document.body.ondragleave = () => document.body.classList.remove("over");
  document.body.ondrop = (event) => {
    event.preventDefault();
    document.body.classList.remove("over");
    open(event.dataTransfer.files[0]);
  };
}
