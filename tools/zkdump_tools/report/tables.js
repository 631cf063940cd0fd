// The tables: their rows can be sorted, and each leads to the messages around it.

const orders = {};      // by table, the column that it is sorted by and the direction
const NUMBERS = new Set(["count", "ms", "length", "connection"]);
const TIMES = new Set(["time", "ms", "length"]);    // a text of these has the digits of a number
const HELP = {
  operations: "p50, p95 and p99: the latency that 50, 95 or 99 of a hundred replies didn't exceed.",
  errors: "An answer is no failure: exists says NONODE where there is no node.",
  paths: "A part of a multi counts as a request of its path.",
  watches: "Set: by a request that asked for a watch and could set one, or again by setWatches after a reconnection.",
  unanswered: "Requests that had no reply when the recording or the connection ended.",
  notCaptured: "Their replies may be among the bytes that are missing. The pictures leave them out.",
  notKnown: "The reading stopped before their replies could come. The pictures leave them out.",
};

function cellText(kind, value) {
  if (value === null || value === undefined) return "–";
  if (kind === "time") return iso(value).replace("T", " ").replace("Z", "");
  if (kind === "ms") return typeof value === "string" ? value : String(+value.toFixed(3));
  if (kind === "length") return duration(value);
  if (kind === "count") return count(value);
  if (kind === "counts") return Object.entries(value).map(([name, many]) => `${visible(name)} ${count(many)}`).join(", ") || "–";
  return shownText(value);
}

// By what a value is sorted; null comes before all others.
function sortKey(kind, value) {
  if (value === null || value === undefined) return null;
  if (kind === "connection") return value.slice(1).split(".").reduce((sum, each) => sum + each.padStart(9, "0"), "");
  if (kind === "session") return BigInt(value);
  if (TIMES.has(kind) && typeof value === "string") return BigInt(value.replace(/\D/g, ""));
  if (typeof value !== "object") return value;
  return "size" in value ? value.text : Object.values(value).reduce((sum, each) => sum + each, 0);
}

function compareKeys(a, b) {
  if (a === null || b === null) return (b === null) - (a === null);
  return a < b ? -1 : a > b ? 1 : 0;
}

function sorted(name, rows) {
  const order = orders[name];
  if (!order) return rows;
  const { column, direction } = order, kind = data.tables[name].columns[column][2];
  return rows.map(row => [sortKey(kind, row[column]), row])
    .sort(([a], [b]) => direction * compareKeys(a, b)).map(([, row]) => row);
}

function drawTables(indices) {
  const made = Object.keys(data.tables).map(name => drawTable(name, rowsOf(name, indices)));
  if (data.compared) made.unshift(drawCompared(data.compared));
  document.getElementById("tables").replaceChildren(...made);
  const note = document.getElementById("note"), told = shortcoming();
  note.hidden = !told;
  note.textContent = told;
}

function drawTable(name, rows) {
  const { heading, columns } = data.tables[name];
  const section = element("section", { id: `t-${name}`, class: "table" },
    element("h2", {}, `${heading} `, element("small", { text: rows.length ? count(rows.length) : "none" })));
  if (HELP[name] && rows.length) section.append(element("p", { class: "hint", text: HELP[name] }));
  const more = rest(name), short = data.short[name];
  if (!rows.length && more) section.append(element("p", { class: "hint", text: more }));
  if (!rows.length) return section;
  const head = element("tr", {}, ...columns.map(([, title, kind], at) => header(name, title, kind, at)));
  const body = element("tbody", {}, ...sorted(name, rows).map(row => drawRow(columns, row)));
  section.append(element("div", { class: "scroll" }, element("table", {}, element("thead", {}, head), body)));
  if (more) section.append(element("p", { class: "hint", text: more }));
  if (short) {
    section.append(element("p", { class: "hint", text: `There were too many ${name} to count each: counts may be up to ${count(short)} too low.` }));
  }
  return section;
}

// The first difference from the other run, and the counts of both.
function drawCompared({ equal, first, columns, rows }) {
  const section = element("section", { id: "t-compared", class: "table" }, element("h2", { text: "Compared with the other run" }));
  if (first) {
    section.append(element("p", { text: `The first difference is ${first.kind[0] === "e" ? "an" : "a"} ${first.kind} of connection ${first.label}, after ${count(first.equal)} exchanges and events that are the same:` }));
    ["here", "there"].forEach((name, side) => {
      const n = first.messages[side];
      const where = n && side === 0 ? element("a", { href: hashOf({ m: `${first.connection + 1}:${n}` }), text: `here, message ${count(n)}` })
        : element("span", { class: "hint", text: n ? `${name}, message ${count(n)}` : name });
      section.append(where, element("pre", { class: "text", text: first.texts[side] === null ? "nothing" : visible(first.texts[side]) }));
    });
  } else {
    section.append(element("p", { text: `No difference: ${count(equal)} exchanges and events are the same.` }));
  }
  const head = element("tr", {}, ...columns.map(([, title, kind]) =>
    element("th", { scope: "col", class: NUMBERS.has(kind) ? "number" : "", text: title })));
  section.append(element("div", { class: "scroll" }, element("table", {}, element("thead", {}, head),
    element("tbody", {}, ...rows.map(row => drawRow(columns, row))))));
  return section;
}

function header(name, title, kind, at) {
  const order = orders[name]?.column === at ? orders[name].direction : 0;
  const press = () => {
    const first = NUMBERS.has(kind) || kind === "counts" ? -1 : 1;
    orders[name] = { column: at, direction: order ? -order : first };
    draw();
    document.querySelector(`#t-${name} th:nth-child(${at + 1}) button`)?.focus();
  };
  return element("th", { class: NUMBERS.has(kind) ? "number" : "", scope: "col",
    "aria-sort": order ? (order > 0 ? "ascending" : "descending") : null },
  element("button", { type: "button", onclick: press, text: title + (order ? (order > 0 ? " ↑" : " ↓") : "") }));
}

function drawRow(columns, row) {
  const [connection, n] = row.slice(-2);
  const leads = connection !== null && n !== null;
  const op = row[columns.findIndex(each => each[2] === "op")];
  const cells = columns.map(([name, , kind], at) => {
    const value = row[at], text = cellText(kind, value);
    const alert = value && (name.startsWith("unanswered") ? "unanswered" : name.startsWith("failed") || kind === "error" && isFailure(op, value) ? "failed" : "");
    const cell = element("td", { class: [NUMBERS.has(kind) && "number", kind, alert].filter(Boolean).join(" ") });
    if (at === 0 && leads) cell.append(element("a", { href: hashOf({ m: `${connection + 1}:${n}` }), text }));
    else cell.textContent = text;
    if (text.length > 60) cell.title = text;
    return cell;
  });
  const made = element("tr", {}, ...cells);
  if (leads) made.addEventListener("click", event => { if (!getSelection().toString()) { event.preventDefault(); openMessages(connection, n); } });
  return made;
}
