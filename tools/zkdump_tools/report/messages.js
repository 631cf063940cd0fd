// The list of the messages around one of them, each with its fields, and its data as text and as hexadecimal.

const panel = document.getElementById("messages");
const SHOWN_FIRST = 5;
const HEAD_FIELDS = new Set(["n", "side", "xid", "op", "path", "at", "ms", "of", "asked", "err", "errName"]);
const DATES = new Set(["ctime", "mtime"]);      // of a stat: milliseconds since 1970
let opened = null;      // the connection, the message, and the first and last index that are shown

function openMessages(connection, n) {
  const all = data.messages[connection] ?? [], at = all.findIndex(each => each.n === n);
  opened = { connection, n, at, first: Math.max(0, at - SHOWN_FIRST), last: Math.min(all.length - 1, at + SHOWN_FIRST) };
  document.body.classList.add("reading");
  panel.hidden = false;
  drawMessages();
  writeHash();
  panel.querySelector("details.chosen > summary")?.focus({ preventScroll: true });
  panel.querySelector("details.chosen")?.scrollIntoView({ block: "center" });
}

function closeMessages() {
  opened = null;
  panel.hidden = true;
  document.body.classList.remove("reading");
  writeHash();
}

function drawMessages() {
  const { connection, n, at, first, last } = opened, each = data.connections[connection];
  const all = data.messages[connection] ?? [];
  const close = element("button", { type: "button", onclick: closeMessages, text: "Close", title: "Esc" });
  const head = element("header", {}, element("div", {},
    element("h2", { text: `Connection ${connectionName(connection)}, message ${count(n)}` }),
    element("p", { text: [visible(each.name), each.server && `to ${each.server}`,
      `session ${sessionName(sessionOf[connection])}`].filter(Boolean).join(" · ") })), close);
  if (at < 0) {
    panel.replaceChildren(head, element("p", { class: "hint", text: missing(connection, n) }));
    return;
  }
  const list = element("div", { class: "list" });
  if (first > 0) list.append(more("Earlier messages", () => { opened.first = Math.max(0, first - 20); drawMessages(); }));
  for (let i = first; i <= last; i++) {
    const gap = i > first ? all[i].n - all[i - 1].n - 1 : 0;
    if (gap) list.append(element("p", { class: "hint", text: `${count(gap)} messages that are not in this page` }));
    list.append(drawMessage(all[i], connection));
  }
  if (last < all.length - 1) list.append(more("Later messages", () => { opened.last = Math.min(all.length - 1, last + 20); drawMessages(); }));
  panel.replaceChildren(head, list);
}

// The kept request that is this message.
function keptRequest(connection, n) {
  if (!keptRequest.all) {
    keptRequest.all = new Map();
    for (let i = 0; i < requests.count; i++) keptRequest.all.set(`${requests.connection[i]}:${requests.n[i]}`, i);
  }
  return keptRequest.all.get(`${connection}:${n}`);
}

function missing(connection, n) {
  const each = data.connections[connection];
  return `The messages around this one are not in the page, which has those around the rows of its tables. The listing has them: zkdump show < RECORDING | sed -n '${Math.max(1, n - SHOWN_FIRST)},${n + SHOWN_FIRST}p', of ${visible(each.name)}.`;
}

function more(text, press) {
  return element("button", { type: "button", class: "more", onclick: press, text });
}

function drawMessage(each, connection) {
  const chosen = each.n === opened.n, error = each.errName ?? each.err;
  const path = each.path ?? each.asked;
  const line = element("summary", {},
    element("span", { class: "n", text: each.n }),
    element("span", { class: "at", text: each.at === undefined ? "" : timeOfDay(each.at) }),
    element("span", { class: `side ${each.side}`, text: each.side === "C" ? "client →" : "← server" }),
    element("span", { class: "op", text: `${visible(String(each.op))}${each.xid === undefined ? "" : ` ${each.xid}`}` }),
    element("span", { class: "path", text: path === undefined ? "" : shownText(path) }),
    element("span", { class: isFailure(each.op, error) ? "error failed" : "error", text: error === undefined ? "" : visible(String(error)) }),
    element("span", { class: "ms", text: each.ms === undefined ? "" : duration(each.ms) }));
  const made = element("details", { class: `message ${chosen ? "chosen" : ""} ${each.side}`, id: `m-${connection + 1}-${each.n}` }, line);
  const fill = () => { if (made.children.length === 1) made.append(fieldsOf(each, connection)); };
  if (chosen) {
    made.open = true;
    fill();
  }
  made.addEventListener("toggle", fill);
  return made;
}

function fieldsOf(each, connection) {
  const list = element("dl");
  const put = (name, ...values) => list.append(element("dt", { text: visible(name) }), element("dd", {}, ...values));
  const text = value => element("span", { text: value });
  if (each.at !== undefined) put("time", text(iso(each.at)));
  if (each.path !== undefined) put("path", text(shownText(each.path)));
  if (each.err !== undefined) put("error", text(each.errName ? `${each.errName} (${each.err})` : String(each.err)));
  if (each.of !== undefined) {
    put("answers", element("a", { href: hashOf({ m: `${connection + 1}:${each.of}` }), text: `message ${count(each.of)}` }),
      text(each.ms === undefined ? "" : ` after ${duration(each.ms)}`));
  }
  const i = each.side === "C" ? keptRequest(connection, each.n) : undefined;
  if (i !== undefined && outcome(i) === UNANSWERED) put("answered", element("span", { class: "unanswered", text: "never" }));
  else if (i !== undefined && outcome(i) === NOT_CAPTURED) put("answered", text("not known: bytes are missing"));
  else if (i !== undefined && outcome(i) === NOT_KNOWN) put("answered", text("not known: the reading stopped"));
  else if (i !== undefined) {
    const n = each.n + requests.reply[i];
    put("answered", element("a", { href: hashOf({ m: `${connection + 1}:${n}` }), text: `by message ${count(n)}` }),
      text(Number.isNaN(requests.ms[i]) ? "" : ` after ${duration(requests.ms[i])}`));
  }
  for (const [name, value] of Object.entries(each)) if (!HEAD_FIELDS.has(name)) put(name, ...valueOf(name, value));
  return list;
}

// A field's value: data in both spellings, lists and parts element by element.
function valueOf(name, value) {
  const text = told => [element("span", { text: told })];
  if (DATES.has(name) && (typeof value === "number" || typeof value === "string")) return text(`${iso(value)} (${value})`);
  if (value === null || typeof value === "number" || typeof value === "boolean") return text(String(value));
  if (name === "blob") return dataOf(value);
  if (typeof value === "string") return text(visible(value));
  if ("secret" in value) return text(`${count(value.secret)} bytes, left out of this page`);
  if ("size" in value && "text" in value) return text(shownText(value));
  if ("hex" in value) return dataOf(value);
  if (Array.isArray(value)) {
    return value.length ? [element("ol", {}, ...value.map(each => element("li", {}, ...elementOf(each))))] : text("none");
  }
  return [element("span", { class: "pairs" }, ...Object.entries(value).map(([key, each]) =>
    element("span", {}, element("b", { text: visible(key) }), " ", ...valueOf(key, each))))];
}

function elementOf(each) {
  if (each && typeof each === "object" && "more" in each) return [element("i", { text: `and ${count(each.more)} more` })];
  return valueOf("", each);
}

function dataOf(value) {
  const isHex = typeof value === "object" && value !== null && "hex" in value;
  const bytes = isHex ? Uint8Array.from(value.hex.match(/../g) ?? [], each => parseInt(each, 16))
    : new TextEncoder().encode(plainText(value));
  const size = value?.size ?? bytes.length;
  if (!size) return [element("span", { text: "no bytes" })];
  const told = size > bytes.length ? `${count(size)} bytes, the first ${count(bytes.length)} of them:` : `${count(size)} bytes:`;
  const text = new TextDecoder().decode(bytes).replace(/[^\n\t]/gu, each => visible(each));
  return [element("span", { class: "hint", text: told }), element("pre", { class: "text", text }),
    element("pre", { class: "hex", text: hexDump(bytes) })];
}

// Sixteen bytes a line: where they begin, in hexadecimal, and as characters.
function hexDump(bytes) {
  const lines = [];
  for (let at = 0; at < bytes.length; at += 16) {
    const row = [...bytes.slice(at, at + 16)];
    const digits = row.map(each => each.toString(16).padStart(2, "0")).join(" ");
    const characters = row.map(each => (each >= 0x20 && each < 0x7f ? String.fromCharCode(each) : ".")).join("");
    lines.push(`${at.toString(16).padStart(6, "0")}  ${digits.padEnd(47)}  ${characters}`);
  }
  return lines.join("\n");
}
