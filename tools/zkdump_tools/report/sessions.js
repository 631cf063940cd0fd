// The picture of the sessions in time: a row a session, a bar a connection.

const MOST_ROWS = 200;

// By connection, its bar: from and to, in the axis of time.
function bar(number) {
  const each = data.connections[number];
  if (!timed) return each.messages ? [1, Math.max(2, each.messages)] : null;
  return each.begun === null ? null : [since(each.begun), since(each.ended)];
}

// The lanes of a session: connections that are open at once are drawn below one another.
function lanes(session) {
  const found = [];
  for (const number of session.connections) {
    const span = bar(number);
    if (!span) continue;
    const lane = found.find(each => each.at(-1).span[1] <= span[0]);
    if (lane) lane.push({ number, span });
    else found.push([{ number, span }]);
  }
  return found;
}

function drawSessions(indices) {
  const box = document.getElementById("sessions"), width = box.clientWidth;
  const rows = data.sessions.map((session, number) => ({ session, number, lanes: lanes(session) }))
    .filter(row => inSession(row.session.connections[0]));
  const shown = rows.filter(row => row.lanes.length).slice(0, MOST_ROWS);
  const high = shown.length > 40 ? 12 : shown.length > 14 ? 18 : 26;
  const tall = shown.reduce((sum, row) => sum + row.lanes.length * high + 4, 0);
  const svg = document.createElementNS(SVG, "svg");
  svg.setAttribute("width", width);
  svg.setAttribute("height", tall + 6);
  svg.setAttribute("role", "group");
  svg.setAttribute("aria-label", "Sessions in time");
  pattern(svg);
  const to = scale(range(), [MARGIN.left, width - MARGIN.right]);
  const clip = shape("clipPath", { id: "plot" }, svg);
  shape("rect", { x: MARGIN.left - 1, y: 0, width: Math.max(0, width - MARGIN.left - MARGIN.right + 2), height: tall + 6 }, clip);
  for (const { x } of ticks(range(), (width - MARGIN.left) / 90)) {
    shape("line", { class: "grid", x1: to(x), x2: to(x), y1: 0, y2: tall + 6 }, svg);
  }
  const marks = troubles(indices);
  let top = 4;
  for (const row of shown) {
    label(svg, row, top, high);
    const plot = shape("g", { "clip-path": "url(#plot)" }, svg);
    row.lanes.forEach((lane, at) => lane.forEach(each => drawBar(plot, each, to, top + at * high, high, marks)));
    if (timed) drawGaps(plot, row.session, to, top, high);
    top += row.lanes.length * high + 4;
  }
  box.replaceChildren(svg);
  const left = rows.length - shown.length;
  if (left) box.append(element("p", { class: "hint", text: `${count(left)} more sessions are not drawn: they have ${
    rows.some(each => !each.lanes.length) ? "no times, or come" : "no room, and come"} after ${MOST_ROWS} others.` }));
}

function pattern(svg) {
  const hatch = shape("pattern", { id: "hatch", width: 6, height: 6, patternUnits: "userSpaceOnUse",
    patternTransform: "rotate(45)" }, shape("defs", {}, svg));
  shape("rect", { class: "hatch", width: 2.5, height: 6 }, hatch);
}

function label(svg, row, top, high) {
  const { session, number } = row;
  const link = shape("a", { href: "#", class: "label" }, svg,
    `${sessionName(number)}: ${session.connections.length} connection${session.connections.length === 1 ? "" : "s"}, ${session.end}`);
  shape("text", { x: 0, y: top + high / 2 + 4 }, link).textContent = visible(session.id ?? `session unknown`);
  link.addEventListener("click", event => {
    event.preventDefault();
    setFilter("session", filter.session === "" ? sessionKeys[number] : "");
  });
}

// The failed and the unanswered requests by connection. Where the page has not every request and the filters don't choose
// among them, their counts by time are drawn in place of the requests.
function troubles(indices) {
  const found = new Map();
  for (const i of indices) {
    if (outcome(i) === OK || Number.isNaN(requests.x[i])) continue;
    const number = requests.connection[i];
    if (!found.has(number)) found.set(number, []);
    found.get(number).push(i);
  }
  return found;
}

function drawTroubles(bar, number, to, top, high, marks) {
  for (const kind of [FAILED, UNANSWERED]) {
    if (showsDensity() && timed) {
      drawShares(bar, number, kind, to, top, high);
      continue;
    }
    const lines = (marks.get(number) ?? []).filter(i => outcome(i) === kind)
      .map(i => `M${to(requests.x[i]).toFixed(1)},${top + 3}v${high - 6}`);
    if (lines.length) shape("path", { class: `ticks ${OUTCOMES[kind]}`, d: lines.join("") }, bar);
  }
}

// The share of the requests that failed, or had no reply, by time: as much of the bar from its foot on.
function drawShares(parent, number, kind, to, top, high) {
  const { width, first, cells, troubles: counts } = data.density, sums = new Map(), [begun, ended] = bar(number);
  const all = cells[number] ?? [], found = counts[number] ?? [];
  for (let i = 0; i < all.length; i += 3) sums.set(all[i], (sums.get(all[i]) ?? 0) + all[i + 2]);
  for (let i = 0; i < found.length; i += 3) {
    if (found[i + 1] !== kind) continue;
    const x = first + found[i] * width, share = Math.min(1, found[i + 2] / Math.max(1, sums.get(found[i]) ?? 0));
    const from = to(Math.max(x, begun)), until = to(Math.min(x + width, ended)), tall = Math.max(1.5, share * (high - 6));
    shape("rect", { class: `share ${OUTCOMES[kind]}`, x: from, y: top + high - 3 - tall, width: Math.max(1, until - from), height: tall }, parent);
  }
}

function drawBar(plot, { number, span }, to, top, high, marks) {
  const each = data.connections[number], from = to(span[0]), until = Math.max(from + 2, to(span[1]));
  const told = [`${connectionName(number)} ${visible(each.name)}`, each.server && `to ${each.server}`,
    timed ? `${place(span[0])} to ${place(span[1])}, ${duration(span[1] - span[0])}` : `${count(each.messages)} messages`,
    `closed by ${each.closed}`, `recording: ${each.end}`].filter(Boolean);
  const link = shape("a", { href: "#", class: "bar", "aria-label": told.join(", ") }, plot);
  shape("rect", { class: each.refused ? "refused" : "open", x: from, y: top + 3, width: until - from, height: high - 6, rx: 3 }, link);
  drawTroubles(link, number, to, top, high, marks);
  if (until - from > 34 && high > 14) shape("text", { x: Math.max(from, MARGIN.left) + 6, y: top + high / 2 + 4 }, link).textContent = connectionName(number);
  if (!goesOn(number)) drawEnd(link, endOf(each), until, top, high);
  link.addEventListener("click", event => { event.preventDefault(); openMessages(number, 1); });
  link.addEventListener("pointermove", event => tell(told, event.clientX, event.clientY));
  link.addEventListener("pointerleave", () => tell(null));
}

// How a connection ended: a hole or an early end of the recording, a closed session, a refusal or reset, or nothing known.
function endOf(each) {
  if (each.hole) return "hole";
  if (each.closed.startsWith("client: closeSession")) return "closed";
  if (/: (reset|lost|E[A-Z]+)$/.test(each.closed) || each.refused) return "reset";
  return /^(open|not)/.test(each.closed) ? "still" : "closed";
}

// Whether a part of the connection follows, with a hole between that is drawn as such.
function goesOn(number) {
  return data.sessions[sessionOf[number]].holes.some(([before, after]) => before === number && isApart(before, after));
}

// Whether one bar ends before another begins. Parts may overlap, where replies of one come during the next.
function isApart(before, after) {
  return bar(before) && bar(after) && bar(before)[1] <= bar(after)[0];
}

// The sign of an end, at the end of a bar.
function drawEnd(link, end, x, top, high) {
  const middle = top + high / 2, r = Math.min(5, high / 3);
  if (end === "hole") shape("rect", { class: end, x, y: top + 2, width: 16, height: high - 4 }, link);
  else if (end === "closed") shape("rect", { class: end, x: x - 3, y: top + 2, width: 3, height: high - 4 }, link);
  else if (end === "reset") shape("path", { class: end, d: `M${x - r},${middle - r}l${2 * r},${2 * r}m0,${-2 * r}l${-2 * r},${2 * r}` }, link);
  else shape("path", { class: end, d: `M${x},${middle - r}l${r},${r}l${-r},${r}` }, link);
}

const LEGEND = [
  ["closed", "closed"], ["reset", "reset, or the session was refused"], ["still", "end not recorded"],
  ["hole", "bytes are missing, or the recording ends early"], ["gap", "gap between a session's connections"],
  ["ok", "answered"], ["failed", "failed"], ["unanswered", "unanswered"],
  ["p50", "p50: half of the replies took no longer"], ["p99", "p99: 99 of a hundred took no longer"],
];

function drawLegend() {
  document.getElementById("legend").append(...LEGEND.map(([sign, text]) => {
    const svg = document.createElementNS(SVG, "svg");
    svg.setAttribute("width", 22);
    svg.setAttribute("height", 16);
    svg.setAttribute("aria-hidden", "true");
    const bar = shape("g", { class: sign === "gap" ? "gap" : "bar" }, svg);
    if (sign === "gap") shape("line", { x1: 1, x2: 21, y1: 8, y2: 8 }, bar);
    else if (sign === "p50" || sign === "p99") shape("path", { class: sign, d: "M1,11h7v-5h7v3h6" }, svg);
    else if (sign === "ok") shape("circle", { class: "mark ok", cx: 12, cy: 8, r: 2.6 }, bar);
    else if (sign === "failed") shape("path", { class: "mark failed", d: "M12,3.5l4.5,4.5l-4.5,4.5l-4.5,-4.5z" }, bar);
    else if (sign === "unanswered") shape("path", { class: "mark unanswered", d: "M7.5,4h9l-4.5,8.5z" }, bar);
    else {
      shape("rect", { class: "open", x: 0, y: 3, width: sign === "hole" ? 6 : 12, height: 10, rx: 2 }, bar);
      drawEnd(bar, sign, sign === "hole" ? 6 : 12, 0, 16);
    }
    return element("li", {}, svg, text);
  }));
}

// The gaps between a session's connections, and the holes within a connection.
function drawGaps(plot, session, to, top, high) {
  for (const [before, after] of session.holes) {
    if (!isApart(before, after)) continue;
    const from = to(bar(before)[1]), until = to(bar(after)[0]);
    shape("rect", { class: "hole", x: from, y: top + 2, width: Math.max(3, until - from), height: high - 4 }, shape("g", { class: "bar" }, plot),
      `bytes are missing between ${connectionName(before)} and ${connectionName(after)}`);
  }
  for (const [before, after, ms] of session.gaps) {
    if (ms <= 0) continue;
    const from = to(bar(before)[1]), until = to(bar(after)[0]), middle = top + high / 2;
    const gap = shape("g", { class: "gap" }, plot, `${duration(ms)} between ${connectionName(before)} and ${connectionName(after)}`);
    shape("line", { x1: from, x2: until, y1: middle, y2: middle }, gap);
    if (until - from > 52 && high > 14) {
      shape("text", { x: (from + until) / 2, y: middle - 3, "text-anchor": "middle" }, gap).textContent = duration(ms);
    }
  }
}
