// Puts the page together: the head, the filters, and the fragment of the address, which has the filters and the message
// that is open, so that a link leads to the same view.

const field = name => document.getElementById(`f-${name}`);
const NAMES = ["path", "session", "op", "outcome", "slower", "from", "to"];
let writing = false;

// A place on the axis of time, of what a person wrote: a time of day, a whole time, or a message's number. An end without
// microseconds has all that are in its millisecond, as --to.
function placeOf(text, isEnd = false) {
  const told = text.trim();
  if (!told) return null;
  if (!timed) return /^\d+$/.test(told) ? +told : NaN;
  const part = /\.\d{3}(\d+)Z?$/.exec(told)?.[1] ?? (isEnd ? "999" : "0");
  return Math.round((wholePlaceOf(told) + +`0.${part}`) * 1000) / 1000;
}

function wholePlaceOf(told) {
  const day = dayOf(data.begun), late = /^(?:about )?(\d+) ms$/.exec(told);
  if (late) return since(late[1]);
  const full = /^\d\d:\d\d(:\d\d(\.\d+)?)?$/.test(told) ? `${day}T${told}Z` : told.replace(" ", "T").replace(/Z?$/, "Z");
  const at = since(Date.parse(full));
  return /^\d\d:/.test(told) && at < -1 && at + 864e5 <= whole[1] ? at + 864e5 : at;
}

function placeText(x) {
  return !timed ? String(Math.round(x)) : dayOf(data.begun) === dayOf(data.ended) ? place(x)
    : iso(timeAt(x)).replace(/Z$/, "");
}

// Takes the filters from the form; what isn't understood is marked, and has no effect.
function readForm() {
  for (const name of NAMES) {
    const value = field(name).value;
    const number = name === "slower" ? (value.trim() === "" ? null : +value) : placeOf(value, name === "to");
    const isNumber = name === "slower" || name === "from" || name === "to";
    field(name).setAttribute("aria-invalid", isNumber && Number.isNaN(number));
    filter[name] = !isNumber ? value : Number.isNaN(number) ? null : number;
  }
}

function draw() {
  const indices = matching();
  drawSessions(indices);
  drawLatency(indices);
  drawTrends(indices);
  drawTables(indices);
  document.getElementById("matched").textContent = isFiltered()
    ? `${count(indices.length)} of ${count(requests.count)} requests${data.complete ? "" : " that are in the page"}` : "";
}

function refresh() {
  readForm();
  latency.at = -1;
  draw();
  writeHash();
}

function setFilter(name, value) {
  field(name).value = value;
  refresh();
}

function setTimes(from, to) {
  field("from").value = from === null ? "" : placeText(from);
  field("to").value = to === null ? "" : placeText(to);
  refresh();
}

function hashOf(changes = {}) {
  const words = new URLSearchParams();
  for (const name of NAMES) if (field(name).value) words.set(name, field(name).value);
  const all = { ...Object.fromEntries(words), ...(opened ? { m: `${opened.connection + 1}:${opened.n}` } : {}), ...changes };
  return `#${new URLSearchParams(all)}`;
}

function writeHash() {
  const hash = hashOf();
  if (location.hash === hash || hash === "#" && !location.hash) return;
  writing = true;
  history.replaceState(null, "", hash === "#" ? location.pathname : hash);
  writing = false;
}

function readHash() {
  if (writing) return;
  const words = new URLSearchParams(location.hash.slice(1));
  for (const name of NAMES) field(name).value = words.get(name) ?? "";
  readForm();
  draw();
  const [connection, n] = (words.get("m") ?? "").split(":").map(Number);
  if (connection >= 1 && connection <= data.connections.length && n >= 1) openMessages(connection - 1, n);
  else if (opened) closeMessages();
}

function head() {
  document.getElementById("files").textContent = [visible(data.title),
    timed ? `${iso(data.begun).replace("T", " ").replace("Z", "")} to ${timeOfDay(data.ended)} UTC, ${duration(since(data.ended))}`
      : "no times",
    timed && data.counts.timed < data.counts.answered && `${count(data.counts.timed)} of ${count(data.counts.answered)} replies timed`]
    .filter(Boolean).join(" · ");
  document.getElementById("warnings").append(...data.warnings.map(text => element("p", { class: "failed", text: `Not read: ${visible(text)}` })),
    ...data.headlines.map(text => element("p", { class: "failed", text: visible(text) })));
  const one = (name, value, kind = "") => element("li", { class: value ? kind : "" },
    element("b", { text: count(value) }), ` ${name}`);
  const some = (name, value) => one(value === 1 ? name : `${name}s`, value);
  document.getElementById("counts").append(
    some("session", data.sessions.length), some("connection", data.counts.connections), some("request", data.counts.asked),
    one("failed", data.counts.failed, "failed"), one("unanswered", data.counts.unanswered, "unanswered"),
    ...(data.counts.notCaptured ? [one("replies not captured", data.counts.notCaptured)] : []),
    ...(data.counts.notKnown ? [one("not known", data.counts.notKnown)] : []), some("event", data.counts.events), some("message", data.counts.messages));
  data.sessions.forEach((_, number) => field("session").append(element("option", { value: sessionKeys[number], text: visible(sessionName(number)) })));
  [...data.tables.operations.rows].map(row => row[0]).sort().forEach(op => field("op").append(element("option", { value: op, text: visible(op) })));
  field("from").placeholder = timed ? place(0) : "1";
  field("to").placeholder = timed ? place(whole[1]) : String(whole[1]);
  document.getElementById("hint").textContent = `${data.complete ? "Each mark is a request, larger the longer it took; where there are many, a shade shows how many." : "There were too many requests to draw each: the shade shows how many there were. Marks are the slowest of those that did not fail, larger the longer they took, and the unanswered. The red part of a bar is the share of requests that failed."} Drag over the picture to choose a time; a double click takes that back. A bar or a mark leads to its messages.`;
}

head();
drawLegend();
readHash();
addEventListener("hashchange", readHash);
addEventListener("resize", draw);
matchMedia("(prefers-color-scheme: dark)").addEventListener("change", draw);
const form = document.getElementById("filters");
form.addEventListener("input", refresh);
form.addEventListener("submit", event => event.preventDefault());
form.addEventListener("reset", () => setTimeout(refresh));
addEventListener("keydown", event => {
  const isTyping = /^(INPUT|SELECT|TEXTAREA)$/.test(document.activeElement?.tagName ?? "");
  if (event.key === "/" && !isTyping) {
    event.preventDefault();
    field("path").focus();
  } else if (event.key === "Escape" && opened) {
    closeMessages();
  }
});
