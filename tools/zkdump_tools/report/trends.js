// How the requests went over time, step by step: how many began in a second, which share of them failed, and the median and
// the 99th percentile of their latencies.

const STRIP = 40, STRIP_FOOT = 6, MOST_STEPS = 120;

// The steps, each with its beginning `x`, its length, how many requests began in it, how many of them failed, and the
// quantiles of latencies. There are none without times, nor where the page has not every request that the filters choose.
function trend(indices) {
  if (!timed) return [];
  return data.complete ? trendOfRequests(indices) : showsDensity() ? trendOfDensity() : [];
}

// The length of a step of this part of the run.
function stepOf([low, high]) {
  const least = (high - low) / MOST_STEPS;
  return STEPS.find(each => each >= least) ?? Math.ceil(least / 864e5) * 864e5;
}

function trendOfRequests(indices) {
  const [low, high] = range(), length = stepOf([low, high]);
  const inside = indices.filter(i => requests.x[i] >= low && requests.x[i] <= high);
  const found = groups(inside, i => Math.floor((requests.x[i] - low) / length));
  return [...found].sort(([a], [b]) => a - b).map(([at, all]) => {
    const times = sortedLatencies(all.filter(i => outcome(i) < UNANSWERED));
    const x = low + at * length;
    return { x, length: Math.max(1, Math.min(length, high - x)), count: all.length,
      failed: all.filter(i => outcome(i) === FAILED).length, p50: quantile(times, 0.5), p99: quantile(times, 0.99) };
  });
}

// Of the counts by time and latency, where the page has not every request. A latency is then that of its bin's middle.
function trendOfDensity() {
  const { width, first, cells, troubles } = data.density, steps = new Map();
  const step = at => {
    if (!steps.has(at)) {
      const x = Math.max(first + at * width, 0);
      steps.set(at, { x, length: Math.max(1, Math.min(first + (at + 1) * width, whole[1]) - x), count: 0, failed: 0, bins: new Map() });
    }
    return steps.get(at);
  };
  for (const [connection, found] of Object.entries(cells)) {
    for (let i = 0; i < found.length && inSession(connection); i += 3) {
      const each = step(found[i]);
      each.count += found[i + 2];
      each.bins.set(found[i + 1], (each.bins.get(found[i + 1]) ?? 0) + found[i + 2]);
    }
  }
  for (const [connection, found] of Object.entries(troubles)) {
    for (let i = 0; i < found.length && inSession(connection); i += 3) {
      if (found[i + 1] === FAILED) step(found[i]).failed += found[i + 2];
      else step(found[i]).count += found[i + 2];
    }
  }
  return [...steps].sort(([a], [b]) => a - b).map(([, { bins, ...each }]) =>
    ({ ...each, p50: binQuantile(bins, 0.5), p99: binQuantile(bins, 0.99) }));
}

// The latency of the bin that this share of the counted latencies doesn't exceed.
function binQuantile(bins, share) {
  const ordered = [...bins].sort(([a], [b]) => a - b), all = ordered.reduce((sum, [, many]) => sum + many, 0);
  let least = Math.ceil(share * all);
  for (const [bin, many] of ordered) {
    least -= many;
    if (least <= 0) return 10 ** ((bin + 0.5) / BINS_OF_TEN + LEAST_EXPONENT);
  }
  return null;
}

// The lines of the quantiles over the picture of latencies.
function drawQuantiles(pen, steps, axis, to, colour) {
  pen.lineWidth = 1.6;
  for (const name of ["p50", "p99"]) {
    pen.strokeStyle = colour(name);
    pen.beginPath();
    let last = null;
    for (const each of steps) {
      if (each[name] === null) continue;
      const y = axis.y(+each[name]), from = to(each.x), until = Math.max(from + 1, to(each.x + each.length));
      if (last === each.x) pen.lineTo(from, y); else pen.moveTo(from, y);
      pen.lineTo(until, y);
      last = each.x + each.length;
    }
    pen.stroke();
  }
}

// Two strips below the latencies: the rate of requests, and the share of them that failed.
function drawTrends(indices) {
  const box = document.getElementById("trends"), steps = trend(indices);
  box.replaceChildren();
  if (!steps.length) {
    if (timed && indices.length) box.append(element("p", { class: "hint", text: "This page has not every request that the filters choose, so it has no rate, share and percentiles over time for them." }));
    return;
  }
  const width = box.clientWidth, svg = document.createElementNS(SVG, "svg");
  svg.setAttribute("width", width);
  svg.setAttribute("height", 2 * STRIP);
  svg.setAttribute("role", "img");
  const to = scale(range(), [MARGIN.left, width - MARGIN.right]);
  const rates = steps.map(each => each.count / each.length * 1000), most = Math.max(...rates);
  const shares = steps.map(each => (each.count ? each.failed / each.count : 0)), worst = Math.max(...shares);
  svg.setAttribute("aria-label", `Requests a second in time, at most ${rateText(most)}, and the share that failed, at most ${shareText(worst)}.`);
  const clip = shape("clipPath", { id: "strips" }, svg);
  shape("rect", { x: MARGIN.left, y: 0, width: Math.max(0, width - MARGIN.left - MARGIN.right), height: 2 * STRIP }, clip);
  drawStrip(svg, steps, rates.map(each => each / most), to, 0, { kind: "", name: `requests, up to ${rateText(most)}` });
  drawStrip(svg, steps, worst ? shares.map(each => each / worst) : shares, to, STRIP,
    { kind: "failed", name: worst ? `failed, up to ${shareText(worst)}` : "none failed" });
  box.append(svg);
}

function rateText(rate) {
  return `${rate >= 100 ? count(Math.round(rate)) : +rate.toPrecision(2)}/s`;
}

function shareText(share) {
  return `${+(100 * share).toPrecision(2)}%`;
}

function drawStrip(svg, steps, heights, to, top, { kind, name }) {
  shape("text", { x: MARGIN.left - 8, y: top + STRIP / 2 + 4, "text-anchor": "end" }, svg).textContent = name;
  shape("line", { class: "grid", x1: MARGIN.left, x2: to(range()[1]), y1: top + STRIP - STRIP_FOOT + 0.5, y2: top + STRIP - STRIP_FOOT + 0.5 }, svg);
  const plot = shape("g", { "clip-path": "url(#strips)" }, svg), tall = STRIP - STRIP_FOOT - 4;
  steps.forEach((each, at) => {
    if (!heights[at]) return;
    const from = to(each.x), high = Math.max(1, heights[at] * tall);
    const told = [`${place(each.x)}, for ${duration(each.length)}`, `${count(each.count)} requests, ${rateText(each.count / each.length * 1000)}`,
      `${count(each.failed)} failed, ${shareText(each.count ? each.failed / each.count : 0)}`,
      each.p50 !== null && `p50 ${duration(+each.p50)}, p99 ${duration(+each.p99)}`];
    const made = shape("rect", { class: `trend ${kind}`, x: from, y: top + STRIP - STRIP_FOOT - high, width: Math.max(1, to(each.x + each.length) - from), height: high }, plot);
    made.addEventListener("pointermove", event => tell(told, event.clientX, event.clientY));
    made.addEventListener("pointerleave", () => tell(null));
  });
}
