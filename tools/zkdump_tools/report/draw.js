// Scales, axes, and how values are written.

const MARGIN = { left: 176, right: 22 };
const SVG = "http://www.w3.org/2000/svg";

function count(value) {
  return value.toLocaleString("en");
}

// A latency, or another length of time, in milliseconds.
function duration(ms) {
  if (ms === null || ms === undefined || Number.isNaN(ms)) return "–";
  const size = Math.abs(ms);
  if (size < 1) return `${+ms.toFixed(3)} ms`;
  if (size < 1000) return `${+ms.toPrecision(3)} ms`;
  if (size < 60000) return `${+(ms / 1000).toPrecision(3)} s`;
  const seconds = Math.round(ms / 1000), minutes = Math.round(ms / 60000);
  if (Math.abs(seconds) < 3600) return `${Math.floor(seconds / 60)} min ${seconds % 60} s`;
  return `${Math.floor(minutes / 60)} h ${minutes % 60} min`;
}

const LATEST = 253402300800000;     // the end of the year 9999

// A time as zkdump_tools/zkr.py's clock has it: after the year 9999 its milliseconds since 1970, of which a text has the digits.
function iso(ms) {
  return ms < LATEST ? new Date(Math.floor(ms)).toISOString() : `${typeof ms === "string" ? ms : BigInt(Math.floor(ms))} ms`;
}

// The time of a place on the axis of time. Where a number hasn't each millisecond it is a text of the digits, and says
// where these aren't exact.
function timeAt(x) {
  const isLate = typeof data.begun === "string", at = isLate ? BigInt(data.begun) + BigInt(Math.floor(x)) : data.begun + x;
  if (at <= Number.MAX_SAFE_INTEGER) return Math.round(Number(at) * 1000) / 1000;
  return isLate && x <= Number.MAX_SAFE_INTEGER ? String(at) : `about ${BigInt(Math.floor(Number(at)))}`;
}

function dayOf(ms) {
  return ms < LATEST ? iso(ms).slice(0, 10) : iso(ms);
}

// The time of day, up to this place of the whole time.
function timeOfDay(ms, end = 23) {
  return ms < LATEST ? iso(ms).slice(11, end) : iso(ms);
}

// A place on the axis of time as a person reads it: the time of day, or where there are no times the message's number.
function place(x) {
  return timed ? timeOfDay(timeAt(x)) : `message ${count(Math.round(x))}`;
}

function element(name, attributes = {}, ...children) {
  const made = document.createElement(name);
  for (const [key, value] of Object.entries(attributes)) {
    if (key === "text") made.textContent = value;
    else if (key.startsWith("on")) made.addEventListener(key.slice(2), value);
    else if (value !== null && value !== undefined && value !== false) made.setAttribute(key, value === true ? "" : value);
  }
  made.append(...children);
  return made;
}

function shape(name, attributes, parent, title) {
  const made = document.createElementNS(SVG, name);
  for (const [key, value] of Object.entries(attributes)) made.setAttribute(key, value);
  if (title) {
    const told = document.createElementNS(SVG, "title");
    told.textContent = title;
    made.append(told);
  }
  parent.append(made);
  return made;
}

// The part of the run that is drawn: what the filters choose of it.
function range() {
  const from = filter.from ?? whole[0], to = filter.to ?? whole[1];
  return to > from ? [from, to] : [from, from + 1];
}

function scale([low, high], [first, last]) {
  const factor = (last - first) / (high - low);
  const to = value => first + (value - low) * factor;
  to.back = pixel => low + (pixel - first) / factor;
  return to;
}

const STEPS = [1, 2, 5, 10, 20, 50, 100, 200, 500, 1e3, 2e3, 5e3, 1e4, 15e3, 3e4, 6e4, 12e4, 3e5, 6e5, 9e5, 18e5, 36e5,
  72e5, 108e5, 216e5, 432e5, 864e5];

// The ticks of the axis of time: places at round times, and their labels.
function ticks([low, high], most) {
  const least = (high - low) / most;
  const step = timed ? STEPS.find(each => each >= least) ?? Math.ceil(least / 864e5) * 864e5 : roundStep(least);
  const before = !timed ? 0 : typeof data.begun === "string" ? Number(BigInt(data.begun) % BigInt(step)) : data.begun % step;
  const found = [], first = Math.ceil((before + low) / step) * step - before;
  for (let i = 0, x = first; x <= high; x = first + ++i * step) {
    if (x === found.at(-1)?.x) continue;        // a late time has not each millisecond
    const told = timed && timeAt(x), at = typeof told === "string" ? told : Math.round(told);
    const label = !timed ? count(x) : step >= 864e5 ? dayOf(at) : timeOfDay(at, step >= 6e4 ? 16 : step >= 1e3 ? 19 : 23);
    found.push({ x, label });
  }
  return found;
}

function roundStep(least) {
  const ten = 10 ** Math.floor(Math.log10(Math.max(1, least)));
  return [1, 2, 5, 10].map(each => each * ten).find(each => each >= least) ?? ten;
}

// What the axis of time is called.
function axisName() {
  if (!timed) return "message number (there are no times)";
  const from = dayOf(data.begun), to = dayOf(data.ended);
  return `time of day, UTC, ${from === to ? from : `${from} to ${to}`}`;
}

const tip = document.getElementById("tip");

// Shows lines in the tip beside a place of the window; no lines hide it.
function tell(lines, left, top) {
  tip.hidden = !lines;
  if (!lines) return;
  tip.replaceChildren(...lines.filter(Boolean).map(text => element("div", { text })));
  const box = tip.getBoundingClientRect();
  tip.style.left = `${Math.max(4, Math.min(left + 14, innerWidth - box.width - 8))}px`;
  tip.style.top = `${top + 18 + box.height > innerHeight ? top - box.height - 12 : top + 18}px`;
}
