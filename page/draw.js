"use strict";
// How the run is drawn: `g` is a canvas's context, or a pen that writes an SVG (pen.js).

function line(g, points, colour, width = 1) {
  path(g, points);
  g.strokeStyle = colour;
  g.lineWidth = width;
  g.stroke();
}

function path(g, points) {
  g.beginPath();
  points.forEach(([x, y], i) => (i ? g.lineTo(x, y) : g.moveTo(x, y)));
}

function setFont(g, size, isBold = false) {
  g.font = `${isBold ? "bold " : ""}${(size * place.em).toFixed(1)}px "DejaVu Sans", "Segoe UI", sans-serif`;
}

function write(g, text, x, y, { colour = theme.fore, size = 1, align = "left", bold = false, halo = false } = {}) {
  setFont(g, size, bold);
  g.textAlign = align;
  g.textBaseline = "middle";
  if (halo) {
    g.strokeStyle = theme.back;
    g.lineWidth = 3;
    g.strokeText(text, x, y);
  }
  g.fillStyle = colour;
  g.fillText(text, x, y);
}

/** Whether a sending is one of the frame that was chosen; all are where none was. */
function isLit(sending) {
  const { frame } = look;
  return !frame || (sending !== null && sending.device.name === frame.station && sending.frame === frame.frame);
}

const colourOf = source => (source.station ? source.station.colour : theme.repeater);
const isPale = colour => ["#e69f00", "#cc79a7", "#56b4e9", "#f0e442"].includes(colour);

/** The outline of a band: both fronts start at its tap and go both ways along the cable. */
function outlineOf(band, bends) {
  const own = { place: band.tap.place, y: yOf(band.tap.y) }, at = bends.findIndex(bend => bend.place > own.place);
  const all = at > 0 ? [...bends.slice(0, at), own, ...bends.slice(at)] : bends;
  const front = t => all.map(bend => [xOf(t + Math.abs(bend.place - own.place)), bend.y]);
  return front(band.start).concat(front(band.end).reverse());
}

/** The segments that are in view, each with its bends and the bands that may be seen on it. */
function segmentsInView() {
  const shown = net.segments.filter(segment => yOf(segment.bottom) > place.top && yOf(segment.top) < place.bottom);
  const [from, to] = [Math.floor(look.from), Math.ceil(look.to)];
  return shown.map(segment => ({ segment, bends: bendsOf(segment), bands: bandsNear(segment, from, to) }));
}

function drawBands(g, { bends, bands }) {
  for (const band of bands) {
    const source = sourceOf(band);
    g.globalAlpha = isLit(source.sending) ? theme.strength : 0.07;
    path(g, outlineOf(band, bends));
    g.closePath();
    g.fillStyle = colourOf(source);
    g.fill();
    if (xOf(band.end) - xOf(band.start) < 4) continue;
    g.globalAlpha = isLit(source.sending) ? 0.8 : 0.15;
    g.strokeStyle = colourOf(source);
    g.lineWidth = 1;
    g.stroke();
  }
  g.globalAlpha = 1;
}

/** Whether two bands of a segment lie on top of each other somewhere on the cable. */
function doMeet(a, b) {
  const apart = Math.abs(a.tap.place - b.tap.place);
  return a.tap !== b.tap && b.start - a.end < apart && b.end - a.start > -apart;
}

function drawOverlaps(g, { segment, bends, bands }) {
  g.fillStyle = theme.hatch.pattern;
  for (let i = 0; i < bands.length; i++) {
    const others = [];
    for (let j = i + 1; j < bands.length && bands[j].start < bands[i].end + segment.span && others.length < 60; j++) {
      if (doMeet(bands[i], bands[j])) others.push(bands[j]);
    }
    if (!others.length) continue;
    g.save();
    path(g, outlineOf(bands[i], bends));
    g.clip();
    g.globalAlpha = look.frame && ![bands[i], ...others].some(band => isLit(sourceOf(band).sending)) ? 0.12 : 0.75;
    for (const band of others) {
      path(g, outlineOf(band, bends));
      g.closePath();
      g.fill();
    }
    g.restore();
  }
}

/** The bars on the lanes of the taps that emit, with words in them where there is room. */
function drawBars(g, bands, thick) {
  for (const band of bands) {
    const source = sourceOf(band), y = yOf(band.tap.y), left = Math.max(xOf(band.start), place.left - 5);
    const right = Math.min(xOf(band.end), place.right + 5), colour = colourOf(source);
    drawn.bands.push({ line: band.line, left: xOf(band.start), right: xOf(band.end), y });
    if (right < place.left || left > place.right) continue;
    g.globalAlpha = isLit(source.sending) ? 1 : 0.18;
    g.fillStyle = colour;
    g.fillRect(left, y - thick / 2, right - left, thick);
    if (band.kind === "jam") {
      g.fillStyle = theme.stripes.pattern;
      g.fillRect(left, y - thick / 2, right - left, thick);
    }
    if (thick < 6) continue;
    g.strokeStyle = theme.fore;
    g.lineWidth = band.tap.station ? 1.2 : 0.8;
    g.setLineDash(band.tap.station ? [] : [4, 3]);
    g.strokeRect(left, y - thick / 2, right - left, thick);
    g.setLineDash([]);
    if (thick > 0.9 * place.em) writeInBar(g, band, left, right, y);
  }
  g.globalAlpha = 1;
}

/** What a bar may say, the longest first. */
function barWords(band) {
  const source = sourceOf(band);
  const told = source.sending ? `frame ${source.sending.frame}` : "frame";
  const attempt = source.sending && source.sending.attempt > 1 ? `, attempt ${source.sending.attempt}` : "";
  if (band.kind === "extend") return ["extends"];
  if (band.kind === "jam") return [band.tap.station ? "jam" : "jams"];
  if (band.kind === "frame") return [`${band.tap.name}: ${told}${attempt}`, told + attempt, told, told.slice(6)];
  const name = source.station ? source.station.name : "a signal";
  return [`repeats ${name}: ${told}`, `repeats ${name}`, "repeats"];
}

function writeInBar(g, band, left, right, y) {
  const x = Math.max(left, place.left) + 4, room = Math.min(right, place.right) - x - 2;
  const isDark = !isPale(colourOf(sourceOf(band)));
  setFont(g, 0.85);
  const text = barWords(band).find(one => g.measureText(one).width < room);
  if (!text) return;
  if (band.kind === "jam") {
    g.fillStyle = isDark ? "#000000cc" : "#ffffffcc";
    g.fillRect(x - 2, y - 0.45 * place.em, g.measureText(text).width + 4, 0.9 * place.em);
  }
  write(g, text, x, y, { colour: isDark ? "#ffffff" : "#000000", size: 0.85 });
}

/** Thin lines from where a repeater hears what it repeats to where it emits it. */
function drawRepeating(g, bands) {
  g.setLineDash([2, 3]);
  for (const band of bands.filter(one => one.kind === "repeat")) {
    const from = band.tap.repeater.ports[band.port - 1], later = band.tap.repeater.delay;
    g.globalAlpha = isLit(sourceOf(band).sending) ? 0.9 : 0.15;
    for (const t of [band.start, band.end]) {
      line(g, [[xOf(t - later), yOf(from.y)], [xOf(t), yOf(band.tap.y)]], theme.fore, 1);
    }
  }
  g.setLineDash([]);
  g.globalAlpha = 1;
}

// ---- Marks: what the log's rows tell

const MARKS = {
  start: { isAbove: true, shape: [[0, -1.4], [0, -2.7], [1.3, -2.05]], fill: "fore", says: "starts" },
  sent: { isAbove: true, shape: [[-1.3, -2.2], [-0.8, -1.6], [0.1, -2.9]], isOpen: true, says: "sent" },
  hit: { isAbove: true, shape: [[-0.9, -2.9], [0.9, -2.9], [0, -1.3]], fill: "fore", says: "hears a collision" },
  late: { isAbove: true, shape: [[-0.9, -2.9], [0.9, -2.9], [0, -1.3]], fill: "bad", word: "late", says: "late hit" },
  given_up: { ring: 0.85, fill: "bad", lines: [[-0.5, 0, 0.5, 0]], says: "given up" },
  cut: { shape: [[0, -1.2], [-0.4, -0.6], [0.4, 0], [-0.4, 0.6], [0, 1.2]], isOpen: true, says: "cut by the end" },
  received: { ring: 0.6, fill: "fore", says: "received" },
  dropped: { lines: [[-0.65, -0.65, 0.65, 0.65], [-0.65, 0.65, 0.65, -0.65]], colour: "bad", says: "dropped" },
  clash: { shape: star(), fill: "mark", says: "repeater begins to jam" },
  closed: { shape: [[-0.7, -0.7], [0.7, -0.7], [0.7, 0.7], [-0.7, 0.7]], fill: "bad", says: "port closed" },
  opened: { shape: [[-0.7, -0.7], [0.7, -0.7], [0.7, 0.7], [-0.7, 0.7]], fill: "back", says: "port opened" },
  halted: { shape: [[0, -0.95], [0.95, 0], [0, 0.95], [-0.95, 0]], fill: "bad", says: "port halted (jabber)" },
};

function star() {
  return Array.from({ length: 12 }, (_, i) => {
    const angle = (i * Math.PI) / 6, r = i % 2 ? 0.55 : 1.1;
    return [r * Math.sin(angle), r * Math.cos(angle)];
  });
}

function drawMark(g, kind, x, y, r) {
  const mark = MARKS[kind], colour = theme[mark.colour || "fore"];
  if (mark.ring) {
    g.beginPath();
    g.arc(x, y, mark.ring * r, 0, 2 * Math.PI);
  } else if (mark.shape) {
    path(g, mark.shape.map(([a, b]) => [x + a * r, y + b * r]));
    if (!mark.isOpen) g.closePath();
  }
  if (mark.fill) {
    g.fillStyle = theme[mark.fill];
    g.fill();
  }
  if (mark.shape || mark.ring) {
    g.strokeStyle = mark.isOpen || mark.fill === "mark" || mark.fill === "back" ? theme.fore : theme.back;
    g.lineWidth = mark.isOpen ? 2 : 1;
    g.stroke();
  }
  const pen = mark.fill === "bad" ? theme.back : colour;
  for (const [a, b, c, d] of mark.lines || []) {
    line(g, [[x + a * r, y + b * r], [x + c * r, y + d * r]], pen, Math.max(2, r / 3));
  }
  const style = { colour: theme.bad, size: 0.8, bold: true, halo: true };
  if (mark.word) write(g, mark.word, x + 1.3 * r, y - 2.2 * r, style);
}

/** The marks of a row: the kind, the half bit and the tap of each. */
function marksOf(row) {
  const tap = row.tap;
  if (row.what === "clash") return row.device.ports.map(port => ["clash", row.t, port]);
  if (!SENDINGS.has(row.what)) return [[row.what, row.t, tap]];
  const hit = row.hit === null ? [] : [[isLate(row) ? "late" : "hit", row.at, tap]];
  return [["start", row.start, tap], ...hit, ...(row.what === "collided" ? [] : [[row.what, row.t, tap]])];
}

/** The rows some of whose marks may be in view, or null where they are too many to be told apart. */
function rowsInView() {
  const from = countBelow(net.rows, look.from, row => row.t), to = countBelow(net.rows, look.to, row => row.t);
  if (to - from > MOST_MARKS || laneHeight() < 9) return null;
  const rows = net.rows.slice(from, to);
  for (const station of net.stations) {
    const last = countBelow(station.sendings, look.to, sending => sending.start) - 1;
    for (let i = last; i >= 0 && station.sendings[i].end >= look.to; i--) rows.push(station.sendings[i]);
  }
  return rows;
}

function drawMarks(g, rows) {
  const r = 0.42 * place.em * Math.min(1, Math.max(0.5, laneHeight() / (1.8 * place.em)));
  const lit = look.frame ? new Set(frameFacts(look.frame).rows) : null;
  for (const row of rows) {
    g.globalAlpha = lit && !lit.has(row) ? 0.15 : 1;
    for (const [kind, t, tap] of marksOf(row)) {
      const x = xOf(t), y = yOf(tap.y);
      if (x < place.left - r || x > place.right + r || y < place.top || y > place.bottom) continue;
      drawMark(g, kind, x, y, r);
      drawn.marks.push({ x, y, row });
    }
  }
  g.globalAlpha = 1;
}

/** Dotted lines from a collision's end to the end of its backoff, and on to the next attempt. */
function drawWaits(g, stations) {
  for (const station of stations) {
    const y = yOf(station.tap.y), list = station.sendings;
    const first = Math.max(0, countBelow(list, look.from, one => one.start) - 1);
    for (let i = first; i < list.length && list[i].end < look.to; i++) {
      if (list[i].what !== "collided") continue;
      const until = list[i].end + SLOT_TIME * list[i].draw, after = list[i + 1] ? list[i + 1].start : net.to;
      g.globalAlpha = isLit(list[i]) ? 1 : 0.15;
      g.setLineDash([2, 4]);
      line(g, [[xOf(list[i].end), y], [xOf(Math.min(until, after)), y]], station.colour, 3);
      g.setLineDash([]);
      line(g, [[xOf(Math.min(until, after)), y], [xOf(after), y]], station.colour, 1.5);
    }
  }
  g.globalAlpha = 1;
}

// ---- Density, where bands and marks are too many to be told apart

/** For each segment the stretches of half bits in which something, and in which several signals, are in its middle. */
function coverOf(segment) {
  if (segment.cover) return segment.cover;
  const middle = segment.low + segment.span / 2, steps = [];
  for (const band of segment.bands) {
    const later = Math.abs(band.tap.place - middle);
    steps.push([band.start + later, 1], [band.end + later, -1]);
  }
  steps.sort((a, b) => a[0] - b[0] || a[1] - b[1]);
  const cover = [[], []], since = [0, 0];
  let many = 0;
  for (const [t, step] of steps) {
    const before = many;
    many += step;
    for (const level of [0, 1]) {
      if (before <= level && many > level) since[level] = t;
      if (before > level && many <= level && t > since[level]) cover[level].push([since[level], t]);
    }
  }
  return (segment.cover = cover);
}

/** Of each column of the plot the part that stretches cover. */
function coverage(stretches, columns) {
  const parts = new Float32Array(columns), scale = columns / (look.to - look.from);
  const first = countBelow(stretches, look.from, one => one[1]);
  for (let i = first; i < stretches.length && stretches[i][0] < look.to; i++) {
    const [start, end] = stretches[i].map(t => (t - look.from) * scale);
    const from = Math.max(0, start), to = Math.min(columns, end);
    for (let k = Math.floor(from); k < to; k++) parts[k] += Math.min(to, k + 1) - Math.max(from, k);
  }
  return parts;
}

/** The red, green and blue of a colour's name, as the low octets of a dot. */
function dotOf(name) {
  const [red, green, blue] = [1, 3, 5].map(i => parseInt(name.slice(i, i + 2), 16));
  return red | (green << 8) | (blue << 16);
}

/** An image of cells, each a dot that a function tells by its number; its strength is from 0 to 1. */
function cells(columns, rows, tell) {
  const canvas = cells[rows > 2] || (cells[rows > 2] = document.createElement("canvas"));
  if (canvas.width !== columns || canvas.height !== rows) [canvas.width, canvas.height] = [columns, rows];
  const g = canvas.getContext("2d"), image = g.createImageData(columns, rows);
  const dots = new Uint32Array(image.data.buffer);
  for (let i = 0; i < dots.length; i++) dots[i] = tell(i);
  g.putImageData(image, 0, 0);
  return canvas;
}

const dotWith = (colour, strength) => (colour | (Math.round(255 * Math.min(1, strength)) << 24)) >>> 0;

function drawDenseBands(g, segment) {
  const wide = place.right - place.left, columns = Math.max(1, Math.round(wide));
  const [some, several] = coverOf(segment).map(one => coverage(one, columns));
  const calm = dotOf(COLOURS[0]), bad = dotOf(theme.bad);
  const top = yOf(segment.taps[0] ? segment.taps[0].y : segment.top) - 4, bottom = yOf(segment.bottom) - 4;
  const tell = i => (i < columns ? dotWith(calm, 0.75 * some[i]) : dotWith(bad, 3 * several[i - columns]));
  const image = cells(columns, 2, tell);
  const height = Math.max(3, bottom - top), split = several.some(part => part > 0) ? 0.8 : 1;
  g.imageSmoothingEnabled = false;
  g.drawImage(image, 0, 0, columns, 1, place.left, top, wide, height * split);
  if (split < 1) g.drawImage(image, 0, 1, columns, 1, place.left, top + height * split, wide, height * (1 - split));
}

const BAD_ROWS = new Set(["collided", "given_up", "dropped", "clash", "closed", "halted"]);

/** How many rows lie in each cell of the plot, in two lists: good ones, and bad ones. */
function countCells(columns, rows, wide, high) {
  const counts = [new Float32Array(columns * rows), new Float32Array(columns * rows)], lanes = [];
  for (const tap of net.segments.flatMap(segment => segment.taps)) {
    lanes[tap.number] = Math.floor((yOf(tap.y) - place.top) / high);
  }
  const to = countBelow(net.rows, look.to, row => row.t), scale = (xOf(look.from + 1) - xOf(look.from)) / wide;
  for (let i = countBelow(net.rows, look.from, row => row.t); i < to; i++) {
    const row = net.rows[i], x = Math.floor((row.t - look.from) * scale), y = lanes[row.tap.number];
    if (y >= 0 && y < rows && x < columns) counts[BAD_ROWS.has(row.what) ? 1 : 0][y * columns + x]++;
  }
  return counts;
}

function drawDenseRows(g) {
  const wide = 3, high = Math.max(3, Math.min(place.em, laneHeight()));
  const columns = Math.ceil((place.right - place.left) / wide), rows = Math.ceil((place.bottom - place.top) / high);
  const [good, bad] = countCells(columns, rows, wide, high), fore = dotOf(theme.fore), red = dotOf(theme.bad);
  const most = Math.log1p(good.reduce((a, b) => Math.max(a, b), bad.reduce((a, b) => Math.max(a, b), 1)));
  const image = cells(columns, rows, i => {
    const told = bad[i] || good[i];
    return told ? dotWith(bad[i] ? red : fore, 0.2 + (0.4 * Math.log1p(told)) / most) : 0;
  });
  g.imageSmoothingEnabled = false;
  g.drawImage(image, 0, 0, columns, rows, place.left, place.top, columns * wide, rows * high);
}

// ---- The whole plot

function axisStep() {
  const unit = UNITS[look.unit].halfBits, wide = (timeOf(7.5 * place.em) - timeOf(0)) / unit;
  const power = 10 ** Math.floor(Math.log10(wide));
  return Math.max([1, 2, 5, 10].find(times => times * power >= wide) * power, look.unit === 0 ? 1 : 0) * unit;
}

function drawAxis(g) {
  const unit = UNITS[look.unit], step = axisStep(), y = place.top - 0.75 * place.em;
  const digits = Math.max(0, Math.min(6, -Math.floor(Math.log10(step / unit.halfBits) + 1e-9)));
  const style = { colour: theme.dim, size: 0.85, align: "center" };
  g.fillStyle = theme.back;
  g.fillRect(0, 0, place.right + 40, place.top);
  for (let k = Math.ceil(look.from / step - 1e-9); k * step <= look.to + 1e-9; k++) {
    const x = xOf(k * step), told = Math.abs((k * step) / unit.halfBits);
    const text = told.toLocaleString("en-US", { maximumFractionDigits: digits });
    line(g, [[x, place.top], [x, place.bottom]], theme.line, 1);
    const half = text.length * 0.3 * place.em;
    if (x - half > place.left - place.em && x + half < place.right + 0.6 * place.em) write(g, text, x, y, style);
  }
  write(g, unit.short, place.left - 1.2 * place.em, y, { ...style, align: "right" });
}

function shorten(g, text, most) {
  if (g.measureText(text).width <= most) return text;
  while (text.length > 2 && g.measureText(text + "\u2026").width > most) text = text.slice(0, -1);
  return text + "\u2026";
}

/** The names of segments and taps left of the plot, as many as there is room for. */
function drawNames(g) {
  g.fillStyle = theme.back;
  g.fillRect(0, place.top, place.left, place.bottom - place.top + 1);
  let below = place.top;
  for (const segment of net.segments) {
    const y = yOf(segment.top) + 0.9 * place.em, isSpread = laneHeight() >= place.em;
    if (y > below && y < place.bottom) {
      write(g, `cable ${segment.name}`, 6, y, { bold: true, size: 0.85 });
      below = y + (isSpread ? 0.3 : 1) * place.em;
    }
    for (const tap of segment.taps) {
      const at = yOf(tap.y);
      if (at - 0.5 * place.em < below || at > place.bottom - 0.4 * place.em) continue;
      write(g, shorten(g, tap.name, place.left - 2.2 * place.em), place.left - 8, at, { align: "right" });
      g.fillStyle = tap.station ? tap.station.colour : theme.repeater;
      g.fillRect(place.left - 5, at - 0.45 * place.em, 4, 0.9 * place.em);
      below = at + 0.5 * place.em;
    }
  }
}

function drawLanes(g, segments) {
  if (laneHeight() < 5) return;
  for (const { segment } of segments) {
    for (const tap of segment.taps) line(g, [[place.left, yOf(tap.y)], [place.right, yOf(tap.y)]], theme.line, 1);
  }
}

function drawCursor(g) {
  const x = xOf(look.at);
  if (x < place.left - 1 || x > place.right + 1) return;
  line(g, [[x, place.top - 4], [x, place.bottom]], theme.back, 4);
  line(g, [[x, place.top - 4], [x, place.bottom]], theme.fore, 2);
  path(g, [[x - 6, place.top - 9], [x + 6, place.top - 9], [x, place.top]]);
  g.fillStyle = theme.fore;
  g.fill();
}

/** Where the plot lies on a canvas of this size. */
function setPlace(wide, high) {
  place.left = Math.min(11 * place.em, Math.max(6 * place.em, 0.12 * wide));
  place.top = 1.9 * place.em;
  place.right = Math.max(place.left + 10, wide - 0.8 * place.em);
  place.bottom = Math.max(place.top + 10, high - 2);
}

/** Draws the plot: `g` is a canvas's context or an SvgPen. */
function drawPlot(g, wide, high) {
  setPlace(wide, high);
  g.fillStyle = theme.back;
  g.fillRect(0, 0, wide, high);
  drawAxis(g);
  const segments = segmentsInView(), rows = rowsInView();
  Object.assign(drawn, { bands: [], marks: [], rows: Boolean(rows), pictures: drawn.pictures + 1 });
  drawn.isDense = segments.reduce((sum, one) => sum + one.bands.length, 0) > MOST_BANDS;
  g.save();
  g.beginPath();
  g.rect(place.left, place.top, place.right - place.left, place.bottom - place.top);
  g.clip();
  if (drawn.isDense) segments.forEach(({ segment }) => drawDenseBands(g, segment));
  else drawSignals(g, segments);
  if (!rows) drawDenseRows(g);
  drawCursor(g);
  if (rows) drawMarks(g, rows);
  g.restore();
  drawNames(g);
}

function drawSignals(g, segments) {
  segments.forEach(one => drawBands(g, one));
  drawLanes(g, segments);
  segments.forEach(one => drawOverlaps(g, one));
  if (laneHeight() >= 9) {
    segments.forEach(one => drawRepeating(g, one.bands));
    drawWaits(g, segments.flatMap(one => one.segment.taps).flatMap(tap => tap.station || []));
  }
  const thick = Math.max(2, Math.min(1.15 * place.em, 0.6 * laneHeight()));
  segments.forEach(one => drawBars(g, one.bands, thick));
}

// ---- The cables at the cursor: where on each of them signals stand

/** The stretches of places, from a band's tap both ways, in which it stands in a half bit. */
function standsAt(band, t) {
  const near = Math.max(0, t - band.end), far = t - band.start, { low, span } = band.tap.segment, own = band.tap.place;
  if (far < 0) return [];
  const both = near === 0 ? [[own - far, own + far]] : [[own - far, own - near], [own + near, own + far]];
  return both.map(([a, b]) => [Math.max(a, low), Math.min(b, low + span)]).filter(([a, b]) => a <= b);
}

function drawCables(g, wide, high) {
  g.fillStyle = theme.back;
  g.fillRect(0, 0, wide, high);
  const row = 3.4 * place.em, room = Math.max(1, Math.floor((high - 0.4 * place.em) / row + 0.01));
  const many = net.segments.length, first = Math.min(drawCables.first || 0, Math.max(0, many - room));
  const shown = net.segments.slice(first, first + room);
  const scale = (wide - place.left - 2 * place.em) / Math.max(1, ...net.segments.map(segment => segment.span));
  shown.forEach((segment, i) => drawCable(g, segment, Math.floor(look.at), i * row + 1.3 * place.em, scale));
  const more = shown.length < many ? ` (${first + 1} to ${first + shown.length} of ${many}; the wheel has more)` : "";
  element("cables-title").textContent = `The cables at the cursor${more}`;
}

function drawCable(g, segment, t, y, scale) {
  const xOfPlace = at => place.left + (at - segment.low) * scale, thick = 0.9 * place.em;
  write(g, shorten(g, `cable ${segment.name}`, place.left - 12), 6, y, { bold: true, size: 0.85 });
  line(g, [[xOfPlace(segment.low), y], [xOfPlace(segment.low + segment.span), y]], theme.dim, 2);
  const bands = bandsNear(segment, t, t + 1), stretches = bands.map(band => standsAt(band, t));
  bands.forEach((band, i) => stretches[i].forEach(([a, b]) => {
    g.globalAlpha = isLit(sourceOf(band).sending) ? 0.6 : 0.15;
    g.fillStyle = colourOf(sourceOf(band));
    g.fillRect(xOfPlace(a) - 1, y - thick / 2, xOfPlace(b) - xOfPlace(a) + 2, thick);
    g.globalAlpha = 1;
    drawFront(g, band, t, xOfPlace, y);
  }));
  g.globalAlpha = 1;
  g.fillStyle = theme.hatch.pattern;
  stretches.forEach((some, i) => stretches.slice(i + 1, i + 60).flat().forEach(([c, d]) => some.forEach(([a, b]) => {
    const [from, to] = [Math.max(a, c), Math.min(b, d)];
    if (from < to) g.fillRect(xOfPlace(from) - 1, y - thick / 2, xOfPlace(to) - xOfPlace(from) + 2, thick);
  })));
  drawTaps(g, segment, y, thick, xOfPlace);
}

/** Arrows at the fronts of a band that are on their way along the cable. */
function drawFront(g, band, t, xOfPlace, y) {
  const { low, span } = band.tap.segment, r = 0.45 * place.em;
  for (const way of [-1, 1]) {
    const at = band.tap.place + way * (t - band.start);
    if (at <= low || at >= low + span) continue;
    path(g, [[xOfPlace(at), y - 1.4 * r], [xOfPlace(at) + way * 1.6 * r, y], [xOfPlace(at), y + 1.4 * r]]);
    g.fillStyle = theme.fore;
    g.fill();
  }
}

function drawTaps(g, segment, y, thick, xOfPlace) {
  let right = -Infinity;
  for (const tap of segment.taps) {
    const x = xOfPlace(tap.place), colour = tap.station ? tap.station.colour : theme.repeater;
    if (x < right) continue;
    setFont(g, 0.85);
    const wide = g.measureText(tap.name).width;
    if (x - wide / 2 < right) continue;
    line(g, [[x, y - 0.65 * place.em], [x, y + 0.75 * place.em]], theme.fore, 1.5);
    g.fillStyle = colour;
    g.fillRect(x - wide / 2, y + 1.75 * place.em, wide, 3);
    write(g, tap.name, x, y + 1.25 * place.em, { size: 0.85, align: "center" });
    right = x + wide / 2 + 0.4 * place.em;
  }
}
