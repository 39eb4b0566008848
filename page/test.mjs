// Tries the page: what it shows of each text that is pasted, and of each file that is opened. tools/page adds this to a copy of the page.
const bytesOf = (base64) => Uint8Array.from(atob(base64), (it) => it.charCodeAt(0));
const all = (within, kind) => Array.from(within.querySelectorAll(kind));

function given(trial) {
  if ("text" in trial) {
    const it = document.getElementById("text");
    it.value = trial.text;
    return it.oninput();
  }
  const file = new File([bytesOf(trial.file)], "message.der"), held = new DataTransfer(), it = document.getElementById("file");
  held.items.add(file);
  it.files = held.files;
  return it.onchange({ target: it });
}

// How many lines light up other bytes than those of their elements.
function wrongLights(panes) {
  const spans = all(panes, ".row > span:not(.at)");
  return all(panes, ".line:not(.broken)").filter((line) => {
    const [offset, header, content] = line.textContent.match(/^ *(\d+) d=\d+ *hl=(\d+) *l=(\d+)/).slice(1).map(Number);
    line.onmouseenter();
    const right = spans.every((it, at) => it.className === (at < offset || at >= offset + header + content ? "" : at < offset + header ? "head" : "lit"));
    line.onmouseleave();
    return !right || spans.some((it) => it.className);
  }).length;
}

const results = [];
for (const trial of TRIALS) {
  await given(trial);
  const messages = all(document, ".panes").map((panes) => ({
    lines: all(panes, ".line").map((it) => it.textContent),
    bytes: all(panes, ".row > span:not(.at)").map((it) => it.textContent).join(""),
    lights: trial.lights ? wrongLights(panes) : 0,
  }));
  const strange = all(document.getElementById("messages"), "*").filter((it) => !["DIV", "SPAN", "H2"].includes(it.tagName)).length;
  results.push({ said: document.getElementById("said").textContent, strange, messages });
}
document.body.replaceChildren(Object.assign(document.createElement("pre"), { textContent: JSON.stringify(results) }));
