// The picture of the requests: latency against time. A mark is larger the longer its request took. Where marks would hide
// each other, a shade shows how many there are, and the slowest of them keeps its mark if that is large. Where the page has
// not every request, a shade shows how many there were, and the failed ones, of which it has the slowest, have no marks.
// Else the failed ones are drawn first, below all else. Two lines show the median and the 99th percentile over time.

const TALL = 260, BAND = 22, FOOT = 40;
const CELL = 5, CROWD = 3;                  // pixels of a side, and how many marks it has before it is a shade
const LEAST_RADIUS = 1.7, MOST_RADIUS = 7;
const { bins: BINS, binsOfTen: BINS_OF_TEN, leastExponent: LEAST_EXPONENT } = data.density;
const latency = { canvas: null, marks: [], indices: [], at: -1, drag: null };

function colours() {
  const style = getComputedStyle(document.documentElement);
  return name => style.getPropertyValue(`--${name}`).trim();
}

// The axis of latencies: whole powers of ten around what there is.
function latencyAxis(indices) {
  let low = Infinity, high = 0;
  for (const i of indices) {
    if (requests.ms[i] > 0) low = Math.min(low, requests.ms[i]);
    if (requests.ms[i] > high) high = requests.ms[i];
  }
  if (showsDensity()) low = Math.min(low, leastOfDensity());
  if (low === Infinity) {
    if (!indices.some(i => requests.ms[i] === 0)) return null;
    low = 1;              // all of them are shorter than a time's unit
  }
  const from = Math.floor(Math.log10(low)), to = Math.max(from + 1, Math.ceil(Math.log10(high)));
  const on = scale([from, to], [TALL - FOOT, BAND + 8]);
  const most = Math.max(from + 0.5, Math.log10(high)), share = ms => ms > 0 ? (Math.log10(ms) - from) / (most - from) : 0;
  return { from, to, y: ms => on(ms > 0 ? Math.log10(ms) : from),
    radius: ms => LEAST_RADIUS + (MOST_RADIUS - LEAST_RADIUS) * Math.max(0, share(ms)) ** 4 };
}

function showsDensity() {
  return !data.complete && filter.path === "" && filter.op === "" && filter.outcome === "" && filter.slower === null;
}

// The least latency that the density has; Infinity where no request has a time.
function leastOfDensity() {
  let least = Infinity;
  for (const cells of Object.values(data.density.cells)) {
    for (let i = 1; i < cells.length; i += 3) least = Math.min(least, cells[i]);
  }
  return 10 ** (least / BINS_OF_TEN + LEAST_EXPONENT);
}

function drawLatency(indices) {
  const box = document.getElementById("latency");
  if (!latency.canvas) prepare(box);
  const canvas = latency.canvas, width = box.clientWidth, ratio = devicePixelRatio || 1, axis = latencyAxis(indices);
  const hasBand = indices.some(i => outcome(i) === UNANSWERED);
  canvas.width = width * ratio;
  canvas.height = TALL * ratio;
  canvas.style.width = `${width}px`;
  canvas.style.height = `${TALL}px`;
  const pen = canvas.getContext("2d"), colour = colours();
  pen.scale(ratio, ratio);
  pen.font = `12px ${getComputedStyle(document.body).fontFamily}`;
  const to = scale(range(), [MARGIN.left, width - MARGIN.right]);
  drawAxes(pen, width, axis, to, colour, hasBand);
  pen.save();
  pen.beginPath();
  pen.rect(MARGIN.left - 5, 0, width - MARGIN.left - MARGIN.right + 10, TALL - FOOT + 6);
  pen.clip();
  latency.indices = indices;
  latency.marks = [];
  for (const kind of showsDensity() ? [OK, UNANSWERED] : [FAILED, OK, UNANSWERED]) {
    if (kind === OK && axis && showsDensity()) drawDensity(pen, axis, to, colour);
    pen.fillStyle = colour(OUTCOMES[kind]);
    drawMarks(pen, indices.filter(i => outcome(i) === kind), kind, axis, to);
  }
  if (axis) drawQuantiles(pen, trend(indices), axis, to, colour);
  if (latency.at >= 0) ring(pen, latency.at, colour);
  pen.restore();
  if (latency.drag) {
    pen.fillStyle = colour("select");
    const [from, until] = [latency.drag.from, latency.drag.to].sort((a, b) => a - b);
    pen.fillRect(from, 0, until - from, TALL - FOOT);
  }
}

function drawAxes(pen, width, axis, to, colour, hasBand) {
  const right = width - MARGIN.right, foot = TALL - FOOT;
  pen.lineWidth = 1;
  pen.strokeStyle = colour("line");
  pen.fillStyle = colour("soft");
  pen.textBaseline = "middle";
  pen.textAlign = "right";
  const line = (x1, y1, x2, y2) => { pen.beginPath(); pen.moveTo(x1, y1); pen.lineTo(x2, y2); pen.stroke(); };
  for (let power = axis?.from; power <= axis?.to; power++) {
    const y = Math.round(axis.y(10 ** power)) + 0.5;
    line(MARGIN.left, y, right, y);
    pen.fillText(duration(10 ** power), MARGIN.left - 8, y);
  }
  if (hasBand) {
    pen.fillStyle = colour("unanswered");
    pen.fillText("unanswered", MARGIN.left - 8, BAND / 2 + 1);
  }
  pen.fillStyle = colour("soft");
  pen.textAlign = "center";
  for (const { x, label } of ticks(range(), (width - MARGIN.left) / 100)) {
    const at = Math.round(to(x)) + 0.5;
    line(at, 0, at, foot + 4);
    pen.fillText(label, Math.min(at, right - pen.measureText(label).width / 2 + 18), foot + 13);
  }
  pen.textAlign = "left";
  pen.fillText(axis ? "latency" : timed ? "no latencies" : "no latencies: the recordings have no times", 0, BAND / 2 + 30);
  pen.textAlign = "right";
  pen.fillText(axisName(), right, foot + 31);
}

function drawDensity(pen, axis, to, colour) {
  const { width, first, cells } = data.density;
  const sums = new Map();
  let most = 1;
  for (const [connection, found] of Object.entries(cells)) {
    if (!inSession(connection)) continue;
    for (let i = 0; i < found.length; i += 3) {
      const key = found[i] * BINS + found[i + 1], sum = (sums.get(key) ?? 0) + found[i + 2];
      sums.set(key, sum);
      most = Math.max(most, sum);
    }
  }
  pen.fillStyle = colour("ok");
  for (const [key, sum] of sums) {
    const x = first + Math.floor(key / BINS) * width, bin = key % BINS;
    const top = axis.y(10 ** ((bin + 1) / BINS_OF_TEN + LEAST_EXPONENT)), foot = axis.y(10 ** (bin / BINS_OF_TEN + LEAST_EXPONENT));
    pen.globalAlpha = 0.08 + 0.5 * Math.log(1 + sum) / Math.log(1 + most);
    pen.fillRect(to(x), top, Math.max(1, to(x + width) - to(x)), foot - top);
  }
  pen.globalAlpha = 1;
}

// The marks of one kind, or the shade where there are many. Of those that were answered the shade of all is there already
// where the page has not every request.
function drawMarks(pen, indices, kind, axis, to) {
  const cells = new Map(), marks = [], crowd = showsDensity() ? 0 : CROWD;
  let most = 1;
  for (const i of indices) {
    const x = to(requests.x[i]), ms = requests.ms[i];
    if (Number.isNaN(x) || kind !== UNANSWERED && (!axis || Number.isNaN(ms))) continue;
    const mark = { x, y: kind === UNANSWERED ? BAND / 2 : axis.y(ms), r: kind === UNANSWERED ? 4.5 : axis.radius(ms) };
    latency.marks.push([mark.x, mark.y, i]);
    const key = `${Math.floor(mark.x / CELL)} ${Math.floor(mark.y / CELL)}`, cell = cells.get(key) ?? [];
    cells.set(key, cell);
    most = Math.max(most, cell.push(mark));
  }
  for (const [key, cell] of cells) {
    if (cell.length <= crowd || kind === UNANSWERED) {
      marks.push(...cell);
      continue;
    }
    const slowest = cell.reduce((one, other) => other.r > one.r ? other : one);
    if (slowest.r > CELL / 2) marks.push(slowest);
    if (kind === OK && showsDensity()) continue;
    const [column, row] = key.split(" ").map(Number);
    pen.globalAlpha = 0.15 + 0.5 * Math.log(cell.length) / Math.log(1 + most);
    pen.fillRect(column * CELL, row * CELL, CELL, CELL);
  }
  for (const mark of marks.sort((one, other) => one.r - other.r)) drawMark(pen, mark, kind);
  pen.globalAlpha = 1;
}

function drawMark(pen, { x, y, r }, kind) {
  pen.beginPath();
  pen.globalAlpha = kind === UNANSWERED ? 1 : 0.7;
  if (kind === OK) {
    pen.arc(x, y, r, 0, 7);
  } else if (kind === FAILED) {
    const far = r + 1.2;
    pen.moveTo(x, y - far);
    pen.lineTo(x + far, y);
    pen.lineTo(x, y + far);
    pen.lineTo(x - far, y);
  } else {
    pen.moveTo(x - r, y - r + 0.5);
    pen.lineTo(x + r, y - r + 0.5);
    pen.lineTo(x, y + r);
  }
  pen.fill();
}

function ring(pen, i, colour) {
  const mark = latency.marks.find(each => each[2] === i);
  if (!mark) return;
  pen.strokeStyle = colour("ink");
  pen.lineWidth = 1.5;
  pen.beginPath();
  pen.arc(mark[0], mark[1], 7, 0, 7);
  pen.stroke();
}

function told(i) {
  const error = data.errors[requests.error[i]];
  return [`${data.ops[requests.op[i]]} ${requests.path[i] < 0 ? "" : shownText(data.paths[requests.path[i]])}`,
    outcome(i) === UNANSWERED ? "never answered" : `${duration(requests.ms[i])}${error ? `, ${error}` : ""}`,
    `${place(requests.x[i])}, connection ${connectionName(requests.connection[i])}, message ${count(requests.n[i])}`];
}

// The canvas, with what a pointer and the keys do on it.
function prepare(box) {
  const canvas = latency.canvas = element("canvas", { tabindex: 0, role: "img",
    "aria-label": "Latency of requests in time. Arrow keys go from mark to mark, Enter shows the messages." });
  box.append(canvas);
  const near = event => {
    const box_ = canvas.getBoundingClientRect(), x = event.clientX - box_.left, y = event.clientY - box_.top;
    let best = null, least = 144;
    for (const [atX, atY, i] of latency.marks) {
      const far = (atX - x) ** 2 + (atY - y) ** 2;
      if (far <= least) [best, least] = [i, far];
    }
    return { x: Math.max(MARGIN.left, Math.min(x, box_.width - MARGIN.right)), best };
  };
  canvas.addEventListener("pointerdown", event => {
    canvas.setPointerCapture(event.pointerId);
    latency.drag = { from: near(event).x, to: near(event).x };
  });
  canvas.addEventListener("pointermove", event => {
    const { x, best } = near(event);
    if (latency.drag) {
      latency.drag.to = x;
      drawLatency(latency.indices);
    }
    canvas.style.cursor = best === null ? "crosshair" : "pointer";
    tell(best === null ? null : told(best), event.clientX, event.clientY);
  });
  canvas.addEventListener("pointerleave", () => tell(null));
  canvas.addEventListener("pointerup", event => {
    const { best } = near(event), drag = latency.drag;
    latency.drag = null;
    const width = canvas.clientWidth, to = scale(range(), [MARGIN.left, width - MARGIN.right]);
    if (drag && Math.abs(drag.to - drag.from) > 4) {
      const [from, until] = [drag.from, drag.to].sort((a, b) => a - b).map(to.back);
      setTimes(from, until);
    } else if (best !== null) {
      openMessages(...link(best));
    } else {
      drawLatency(latency.indices);
    }
  });
  canvas.addEventListener("dblclick", () => setTimes(null, null));
  canvas.addEventListener("keydown", event => step(canvas, event));
}

// The arrow keys go from mark to mark in time.
function step(canvas, event) {
  const ahead = { ArrowRight: 1, ArrowLeft: -1 }[event.key];
  if (ahead) {
    const order = latency.marks.slice().sort((a, b) => a[0] - b[0]).map(each => each[2]);
    const at = order.indexOf(latency.at);
    latency.at = order[at < 0 ? (ahead > 0 ? 0 : order.length - 1) : Math.max(0, Math.min(order.length - 1, at + ahead))] ?? -1;
    drawLatency(latency.indices);
    const mark = latency.marks.find(each => each[2] === latency.at), box = canvas.getBoundingClientRect();
    if (mark) tell(told(latency.at), box.left + mark[0], box.top + mark[1]);
    event.preventDefault();
  } else if (event.key === "Enter" && latency.at >= 0) {
    openMessages(...link(latency.at));
  }
}
