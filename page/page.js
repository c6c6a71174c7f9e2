"use strict";
// What stands beside the plot, the keys, buttons and pointers, what is saved, and the questions that a test may ask.

// ---- What stands beside the plot

function make(name, properties, ...children) {
  const made = Object.assign(document.createElement(name), properties);
  made.append(...children);
  return made;
}

/** Puts rows of cells into a table's body, where they aren't there yet. A cell is a text or a node. */
function fill(body, key, rows) {
  if (body.dataset.key === key) return;
  body.dataset.key = key;
  body.replaceChildren(...rows().map(cells => make("tr", {}, ...cells.map((cell, i) => {
    const made = make(i ? "td" : "th", i ? {} : { scope: "row" }, ...[cell].flat());
    if (/^[\d,]+$/.test(cell)) made.className = "number";
    return made;
  }))));
}

function nameCell(name, colour) {
  const swatch = make("span", { className: "swatch" });
  swatch.style.background = colour;
  return [swatch, name];
}

/** The stations that are told of: all, or where they are many those that do something, as many as there is room for. */
function stationsTold(t) {
  if (net.stations.length <= MOST_ROWS_TOLD) return net.stations;
  const busy = net.stations.filter(station => sendingAt(station, t));
  const others = net.stations.filter(station => !busy.includes(station)).slice(0, MOST_ROWS_TOLD);
  return [...busy, ...others].slice(0, MOST_ROWS_TOLD);
}

function showStates(t) {
  const told = stationsTold(t), states = told.map(station => stateAt(station, t).words);
  const rest = net.stations.length - told.length;
  fill(element("states").tBodies[0], JSON.stringify([states, told.map(one => one.name)]), () => [
    ...told.map((station, i) => [nameCell(station.name, station.colour), states[i]]),
    ...(rest ? [["\u2026", `and ${group(rest)} more stations`]] : []),
  ]);
}

function shareBar(station, t) {
  const shares = sharesAt(station, t), whole = Math.max(1, t - net.from), bar = make("div", { className: "share" });
  const [sent, lost] = [shares.sent, shares.lost].map(part => (100 * part) / whole);
  const parts = [make("i", {}), make("i", { className: "lost" })];
  parts[0].style.cssText = `width: ${sent}%; background: ${station.colour}`;
  parts[1].style.cssText = `left: ${sent}%; width: ${lost}%`;
  bar.append(...parts);
  bar.title = `${sent.toFixed(1)} % in frames that were sent, ${lost.toFixed(1)} % in others`;
  return [bar, `${(sent + lost).toFixed(1)} %`];
}

function showCounters(t) {
  const counted = countersAt(t);
  const told = stationsTold(t), names = JSON.stringify(told.map(one => one.name));
  const shares = () => told.map(one => [nameCell(one.name, one.colour), ...shareBar(one, t)]);
  fill(element("shares").tBodies[0], t + names, shares);
  const none = newCounters(), row = (words, cell, counters) => [cell, ...words.map(word => group(counters[word]))];
  fill(element("counters").tBodies[0], counted.next + names, () => [
    ...told.map(one => row(TOLD_COUNTS, nameCell(one.name, one.colour), counted.by.get(one) || none)),
    row(TOLD_COUNTS, "all", counted.all),
  ]);
  fill(element("repeaters").tBodies[0], String(counted.next), () => net.repeaters.slice(0, MOST_ROWS_TOLD).map(one =>
    row(REPEATER_COUNTS, nameCell(one.name, theme.repeater), counted.by.get(one) || none)));
}

const TOLD_COUNTS = STATION_COUNTS.filter(word => word !== "cut");

/** The heads of the tables of counters, once. */
function showHeads() {
  for (const [id, words] of [["counters", TOLD_COUNTS], ["repeaters", net.repeaters.length ? REPEATER_COUNTS : []]]) {
    const heads = ["", ...words].map(word => make("th", { scope: "col", className: "number" }, word.replace("_", " ")));
    if (words.length) element(id).tHead.append(make("tr", {}, ...heads));
  }
}

const inWindow = t => Math.min(Math.max(t, net.from), net.to);
const isAtCursor = row => inWindow(row.at) === look.at;

/** The row that was gone to, where the cursor is still there, or else the first one from the cursor on. */
function rowAtCursor() {
  if (look.row && isAtCursor(look.row)) return look.row;
  return net.rows[Math.min(countBelow(net.rows, look.at, row => row.t), net.rows.length - 1)];
}

function showLines() {
  const row = rowAtCursor(), list = element("lines");
  if (!row) return;
  const first = Math.max(0, Math.min(row.index - (LINES_TOLD >> 1), net.rows.length - LINES_TOLD));
  const key = `${first} ${row.index} ${isAtCursor(row)}`;
  if (list.dataset.key === key) return;
  list.dataset.key = key;
  list.replaceChildren(...net.rows.slice(first, first + LINES_TOLD).map(one => {
    const button = make("button", { type: "button", title: sentence(one), onclick: () => goTo(one) }, one.line);
    if (one === row && isAtCursor(row)) button.setAttribute("aria-current", "true");
    return make("li", {}, button);
  }));
}

const RECEPTIONS = new Set(["received", "dropped"]);

/** Of a frame its attempts, and the rows of what others made of them. */
function frameFacts({ station, frame }) {
  const key = `${station} ${frame}`;
  if (frameFacts.kept && frameFacts.kept.key === key) return frameFacts.kept;
  const device = net.stations.find(one => one.name === station);
  const attempts = device ? device.sendings.filter(one => one.frame === frame) : [];
  const bands = net.bands.filter(band => attempts.includes(sourceOf(band).sending));
  const from = Math.min(...bands.map(band => band.start));
  const to = Math.max(...bands.map(band => band.end + band.tap.segment.span));
  const [first, last] = [from, to + 1].map(t => countBelow(net.rows, t, row => row.t));
  const isOfIt = row => bandsOfRow(row).some(band => attempts.includes(sourceOf(band).sending));
  const heard = net.rows.slice(first, last).filter(row => RECEPTIONS.has(row.what) && isOfIt(row));
  return (frameFacts.kept = { key, attempts, heard, rows: [...attempts, ...heard] });
}

function showFrame() {
  const box = element("frame");
  box.hidden = !look.frame;
  if (!look.frame) return;
  const { attempts, heard } = frameFacts(look.frame);
  const told = attempts.map(one => `attempt ${one.attempt}, ${toldTime(one.start)} to ${toldTime(one.end)}: ` +
    (one.what === "sent" ? "sent" : sentence(one)));
  const others = heard.slice(0, 12).map(row => `${toldTime(row.t)}: ${sentence(row)}`);
  if (heard.length > 12) others.push(`and ${group(heard.length - 12)} more`);
  box.replaceChildren(make("h3", {}, `Frame ${look.frame.frame} of ${look.frame.station}`),
    make("ul", {}, ...[...told, ...others].map(text => make("li", {}, text))));
}

function showFacts() {
  const t = Math.floor(look.at);
  element("now").textContent = toldTime(t);
  showStates(t);
  showCounters(t);
  showLines();
  showFrame();
}

function showButtons() {
  for (const button of document.querySelectorAll("[data-go]")) {
    const [way, kind] = button.dataset.go.split(" ");
    button.disabled = !(way === "next" ? next : previous)(kind, look.at);
  }
  element("unit").textContent = UNITS[look.unit].name;
  document.querySelector("[data-do=theme]").textContent = look.dark ? "light" : "dark";
  element("play").textContent = playing ? "stop" : "play";
  element("speed").textContent = `${group(SPEEDS[look.speed])} half bits/s`;
}

const SAMPLES = [
  { says: "jam", fill: "stripes" }, { says: "two signals on top of each other", fill: "hatch" },
  { says: "by a repeater", dash: [4, 3], width: 1 }, { says: "waits: backoff, then its turn", dash: [2, 4], width: 3 },
];

function drawSample(g, { fill, dash, width }, x, y) {
  const [left, top, wide, high] = [x - 0.7 * place.em, y - 0.5 * place.em, 1.4 * place.em, place.em];
  g.fillStyle = COLOURS[4];
  if (width !== 3) g.fillRect(left, top, wide, high);
  if (fill) {
    g.fillStyle = theme[fill].pattern;
    g.fillRect(left, top, wide, high);
  }
  g.setLineDash(dash || []);
  if (width === 3) line(g, [[left, y], [left + wide, y]], COLOURS[0], width);
  else if (dash) {
    g.strokeStyle = theme.fore;
    g.lineWidth = width;
    g.strokeRect(left, top, wide, high);
  }
  g.setLineDash([]);
}

/** The legend, in as many rows as it needs: their height. */
function drawLegend(g, wide) {
  g.fillStyle = theme.back;
  g.fillRect(0, 0, wide, legend.clientHeight);
  let x = 1.2 * place.em, y = place.em;
  for (const [kind, mark] of [...SAMPLES.map(sample => ["", sample]), ...Object.entries(MARKS)]) {
    const left = (mark.word ? 2.8 : 1.1) * place.em;
    setFont(g, 0.85);
    const width = left + g.measureText(mark.says).width + 1.8 * place.em;
    if (x + width > wide) [x, y] = [1.2 * place.em, y + 1.7 * place.em];
    if (!kind) drawSample(g, mark, x, y);
    else drawMark(g, kind, x, y + (mark.isAbove ? 0.85 * place.em : 0), 0.42 * place.em);
    write(g, mark.says, x + left, y, { colour: theme.dim, size: 0.85 });
    x += width;
  }
  return y + place.em;
}

// ---- Pictures: each change draws once, when the browser next shows something

let isDue = false, isSized = true;

function changed(what = "") {
  if (what === "size") isSized = true;
  if (isDue) return;
  isDue = true;
  requestAnimationFrame(show);
}

/** A canvas's context, with as many dots as the screen has there. */
function contextOf(canvas) {
  const scale = devicePixelRatio || 1;
  const [wide, high] = [canvas.clientWidth, canvas.clientHeight].map(length => Math.round(length * scale));
  if (canvas.width !== wide) canvas.width = wide;
  if (canvas.height !== high) canvas.height = high;
  const g = canvas.getContext("2d");
  g.setTransform(scale, 0, 0, scale, 0, 0);
  return g;
}

/** Fits the lanes to another size of the plot or of the text, where they weren't spread by hand. */
function refit() {
  setPlace(plot.clientWidth, plot.clientHeight);
  if (!look.isSpread) fitLanes();
  changed("size");
}

function show() {
  isDue = false;
  drawPlot(contextOf(plot), plot.clientWidth, plot.clientHeight);
  if (isSized) {
    isSized = false;
    const rows = Math.min(net.segments.length, 4);
    cables.style.height = `${(3.4 * rows + 0.4) * place.em}px`;
    legend.style.height = `${drawLegend(legend.getContext("2d"), legend.clientWidth)}px`;
    drawLegend(contextOf(legend), legend.clientWidth);
  }
  const { at, row, frame, dark, text, unit, speed } = look;
  const others = [frame, dark, text, unit, speed, playing > 0, drawCables.first, cables.clientWidth];
  const told = JSON.stringify([Math.floor(at), row && row.index, others]);
  if (show.told !== told) {
    drawCables(contextOf(cables), cables.clientWidth, cables.clientHeight);
    showFacts();
    showButtons();
  }
  show.told = told;
  keepView();
}

// ---- The cursor, playing, and going from row to row

const SPEEDS = [1, 2, 5, 10, 20, 50, 100, 200, 500, 1000, 2000, 5000, 10000, 20000, 50000, 100000];
let playing = 0;

function moveTo(t) {
  look.at = inWindow(t);
  const wide = look.to - look.from;
  if (look.at < look.from || look.at > look.to) {
    look.from = look.at - wide * (playing ? 0.1 : 0.4);
    look.to = look.from + wide;
    pan(0);
  }
  changed();
}

function say(text) {
  element("said").textContent = text;
}

function goTo(row) {
  if (!row) return;
  look.row = row;
  moveTo(row.at);
  const all = rowsOfKind("row"), [first, last] = [row.at, row.at + 1].map(t => countBelow(all, t, one => one.at));
  const others = all.slice(first, last).filter(one => one !== row && isCollision(one) === isCollision(row));
  say(`${toldTime(row.at)}: ${[row, ...others.slice(0, 3)].map(sentence).join("; ")}.`);
}

function goByLine(step) {
  const row = rowAtCursor();
  if (!row) return;
  const at = row.index + (isAtCursor(row) ? step : Math.min(step, 0));
  goTo(net.rows[Math.min(Math.max(at, 0), net.rows.length - 1)]);
}

function play(isOn) {
  playing = isOn ? performance.now() : 0;
  look.at = isOn && look.at >= net.to ? net.from : Math.floor(look.at);
  if (isOn) requestAnimationFrame(playOn);
  changed();
}

function playOn(now) {
  if (!playing) return;
  moveTo(look.at + (Math.max(0, now - playing) / 1000) * SPEEDS[look.speed]);
  playing = now;
  if (look.at < net.to) requestAnimationFrame(playOn);
  else play(false);
}

function setFrame(sending) {
  look.frame = sending ? { station: sending.device.name, frame: sending.frame } : null;
  if (sending) {
    const many = frameFacts(look.frame).attempts.length;
    say(`Frame ${sending.frame} of ${sending.device.name}: ${many} ${many === 1 ? "attempt" : "attempts"}.`);
  }
  changed();
}

// ---- The view in the address

function keepView() {
  clearTimeout(keepView.timer);
  keepView.timer = setTimeout(() => {
    const told = new URLSearchParams({
      view: [look.from, look.to].map(t => +t.toFixed(2)), at: Math.floor(look.at),
      unit: look.unit, text: look.text, dark: +look.dark,
    });
    if (look.isSpread) told.set("lanes", [look.spread.toFixed(3), Math.round(look.down)]);
    if (look.frame) told.set("frame", [look.frame.station, look.frame.frame].join(","));
    history.replaceState(null, "", "#" + decodeURIComponent(told.toString()));
  }, 250);
}

function readView() {
  const told = new URLSearchParams(location.hash.slice(1));
  const numbers = name => (told.get(name) || "").split(",").map(Number);
  const isGood = list => list.length === 2 && list.every(Number.isFinite);
  look.unit = Math.min(2, Math.max(0, +told.get("unit") || 0));
  look.text = Math.min(3, Math.max(0, +told.get("text") || 0));
  look.dark = told.has("dark") ? told.get("dark") === "1" : matchMedia("(prefers-color-scheme: dark)").matches;
  setTheme();
  setPlace(plot.clientWidth, plot.clientHeight);
  fit();
  if (isGood(numbers("view")) && numbers("view")[0] < numbers("view")[1]) {
    [look.from, look.to] = numbers("view");
    zoom(1, look.from);
  }
  if (isGood(numbers("lanes"))) {
    [look.spread, look.down] = numbers("lanes");
    spreadLanes(1, place.top);
  }
  const [station, frame] = (told.get("frame") || "").split(",");
  look.frame = net.stations.some(one => one.name === station) ? { station, frame: +frame } : null;
  look.at = inWindow(Math.floor(+told.get("at")) || net.from);
  changed("size");
}

// ---- Pointers

const pointers = new Map();
let moved = 0;

function bandsAt(x, y) {
  const segment = net.segments.find(one => yOf(one.top) <= y && y <= yOf(one.bottom)), t = timeOf(x);
  if (!segment || x < place.left) return [];
  const at = placeOf(segment, y);
  return bandsNear(segment, Math.floor(t), Math.ceil(t) + 1).filter(band => {
    const later = Math.abs(band.tap.place - at);
    return band.start + later <= t && t < band.end + later;
  });
}

/** The rows whose marks are near a dot, or where marks are too many, those in its cell. */
function rowsAt(x, y) {
  if (drawn.rows) {
    const near = drawn.marks.filter(mark => Math.hypot(mark.x - x, mark.y - y) < 0.8 * place.em);
    return [...new Set(near.map(mark => mark.row))];
  }
  const [first, last] = [x - 2, x + 2].map(one => countBelow(net.rows, timeOf(one), row => row.t));
  return net.rows.slice(first, last).filter(row => Math.abs(yOf(row.tap.y) - y) <= 4);
}

function hint(event) {
  const box = element("hint"), [x, y] = [event.offsetX, event.offsetY];
  const rows = rowsAt(x, y), bands = rows.length || drawn.isDense ? [] : bandsAt(x, y).slice(0, 4);
  const more = rows.length > 4 ? `and ${group(rows.length - 4)} more rows` : "";
  box.hidden = !rows.length && !bands.length;
  if (box.hidden) return;
  box.replaceChildren(...rows.slice(0, 4).map(row => make("div", {}, sentence(row), make("small", {}, row.line))),
    ...bands.map(band => make("div", {}, bandWords(band),
      make("small", {}, `${toldTime(band.start)} to ${toldTime(band.end)}`))), more);
  const [left, top] = [event.clientX + 14, event.clientY + 14];
  box.style.left = `${Math.min(left, innerWidth - box.offsetWidth - 8)}px`;
  box.style.top = `${top + box.offsetHeight > innerHeight ? event.clientY - box.offsetHeight - 10 : top}px`;
}

function click(event) {
  const [x, y] = [event.offsetX, event.offsetY], [row] = rowsAt(x, y), bands = bandsAt(x, y);
  const sendings = [row && SENDINGS.has(row.what) ? row : null, ...bands.map(band => sourceOf(band).sending)];
  if (row) goTo(row);
  else moveTo(Math.round(timeOf(x)));
  setFrame(sendings.find(one => one) || null);
}

function movePointer(event) {
  if (!pointers.has(event.pointerId)) return hint(event);
  const before = [...pointers.values()], [x, y] = [event.offsetX, event.offsetY], last = pointers.get(event.pointerId);
  pointers.set(event.pointerId, [x, y]);
  moved += Math.abs(x - last[0]) + Math.abs(y - last[1]);
  if (pointers.size === 2) {
    const after = [...pointers.values()], apart = ([a, b]) => Math.max(10, Math.hypot(a[0] - b[0], a[1] - b[1]));
    zoom(apart(before) / apart(after), timeOf((after[0][0] + after[1][0]) / 2));
  } else if (moved > 4) {
    element("hint").hidden = true;
    pan(timeOf(last[0]) - timeOf(x));
    scrollDown(last[1] - y);
  }
}

function dropPointer(event) {
  if (pointers.delete(event.pointerId) && pointers.size === 0 && moved <= 4 && event.type === "pointerup") click(event);
}

plot.addEventListener("pointerdown", event => {
  if (event.button) return;
  plot.setPointerCapture(event.pointerId);
  if (!pointers.size) moved = 0;
  pointers.set(event.pointerId, [event.offsetX, event.offsetY]);
});
plot.addEventListener("pointermove", movePointer);
plot.addEventListener("pointerup", dropPointer);
plot.addEventListener("pointercancel", dropPointer);
plot.addEventListener("pointerleave", () => { element("hint").hidden = true; });
plot.addEventListener("wheel", event => {
  event.preventDefault();
  const step = (event.deltaY || event.deltaX) * (event.deltaMode === 1 ? 30 : 1);
  if (event.altKey) spreadLanes(Math.exp(-step / 500), event.offsetY);
  else if (event.shiftKey) scrollDown(step);
  else if (Math.abs(event.deltaX) > Math.abs(event.deltaY)) pan(timeOf(event.deltaX) - timeOf(0));
  else zoom(Math.exp(step / 400), timeOf(event.offsetX));
}, { passive: false });
cables.addEventListener("wheel", event => {
  if (net.segments.length <= 4) return;
  event.preventDefault();
  drawCables.first = Math.min(Math.max((drawCables.first || 0) + Math.sign(event.deltaY), 0), net.segments.length - 1);
  changed();
}, { passive: false });

// ---- Saving: the view as PNG or SVG

function svgText() {
  const pen = new SvgPen(plot.clientWidth, plot.clientHeight);
  drawPlot(pen, pen.wide, pen.high);
  return pen.written();
}

function save(blob, name) {
  const link = make("a", { href: URL.createObjectURL(blob), download: name });
  link.click();
  setTimeout(() => URL.revokeObjectURL(link.href), 1000);
  say(`Saved as ${name}.`);
}

// ---- Buttons and keys

const wide = () => look.to - look.from;
const ACTIONS = {
  in: () => zoom(0.5, cursorInView()), out: () => zoom(2, cursorInView()),
  fit: () => { fit(); changed(); },
  back: () => moveTo(Math.ceil(look.at) - 1), on: () => moveTo(Math.floor(look.at) + 1),
  far_back: () => moveTo(Math.round(look.at - wide() / 20)), far_on: () => moveTo(Math.round(look.at + wide() / 20)),
  view_back: () => pan(-wide() / 2), view_on: () => pan(wide() / 2),
  begin: () => moveTo(net.from), end: () => moveTo(net.to), line_back: () => goByLine(-1), line_on: () => goByLine(1),
  play: () => play(!playing),
  slower: () => { look.speed = Math.max(0, look.speed - 1); changed(); },
  faster: () => { look.speed = Math.min(SPEEDS.length - 1, look.speed + 1); changed(); },
  unit: () => { look.unit = (look.unit + 1) % UNITS.length; say(`Times in ${UNITS[look.unit].name}.`); changed(); },
  text: () => { look.text = (look.text + 1) % 4; setTheme(); refit(); },
  theme: () => { look.dark = !look.dark; setTheme(); changed("size"); },
  frame: () => { const row = rowAtCursor(); setFrame(row && SENDINGS.has(row.what) ? row : null); },
  none: () => setFrame(null),
  svg: () => save(new Blob([svgText()], { type: "image/svg+xml" }), "netsim.svg"),
  png: () => plot.toBlob(blob => save(blob, "netsim.png")),
};
const KEYS = {
  "+": "in", "=": "in", "-": "out", 0: "fit", PageUp: "view_back", PageDown: "view_on", Home: "begin", End: "end",
  ArrowLeft: "back", ArrowRight: "on", "Shift ArrowLeft": "far_back", "Shift ArrowRight": "far_on",
  ArrowUp: "line_back", ArrowDown: "line_on", " ": "play",
  "[": "slower", "]": "faster", u: "unit", t: "text", b: "theme", Enter: "frame", Escape: "none", s: "svg", S: "png",
};
const GO_KEYS = { c: "collision", d: "drop", l: "late", g: "given_up", p: "closed" };

function cursorInView() {
  return look.at >= look.from && look.at <= look.to ? look.at : (look.from + look.to) / 2;
}

function go(way, kind) {
  const row = (way === "next" ? next : previous)(kind, look.at);
  if (row) goTo(row);
  else say(`No ${way} ${kind.replace("_", " ").replace("closed", "port closed")}.`);
}

addEventListener("keydown", event => {
  if (event.ctrlKey || event.metaKey || event.altKey) return;
  if (event.target.closest("button, summary") && (event.key === " " || event.key === "Enter")) return;
  if (event.target.closest("#facts") && /^(Arrow|Page|Home|End)/.test(event.key)) return;
  const kind = GO_KEYS[event.key.toLowerCase()];
  const action = KEYS[event.shiftKey && event.key.length > 1 ? `Shift ${event.key}` : event.key];
  if (!kind && !action) return;
  event.preventDefault();
  if (kind) go(event.shiftKey ? "previous" : "next", kind);
  else ACTIONS[action]();
});
for (const button of document.querySelectorAll("[data-go]")) button.onclick = () => go(...button.dataset.go.split(" "));
for (const button of document.querySelectorAll("button[title]")) {
  button.setAttribute("aria-label", button.title.replace(/ \(.*/, ""));
}
for (const button of document.querySelectorAll("[data-do]")) button.onclick = () => ACTIONS[button.dataset.do]();
element("play").onclick = () => ACTIONS.play();
addEventListener("resize", refit);
addEventListener("hashchange", readView);

// ---- What a test may ask

window.netsimPage = {
  errors, next, previous, sentence, goTo, svgText,
  bands: () => net.bands.map(({ line, tap, start, end, kind }) => ({ line, tap: tap.name, start, end, kind })),
  rows: () => net.rows.map(row => row.line), row: number => net.rows[number],
  outlines: () => net.bands.map(band => outlineOf(band, bendsOf(band.tap.segment))),
  heights: () => Object.fromEntries(net.segments.flatMap(segment => segment.taps).map(tap => [tap.name, yOf(tap.y)])),
  doMeet: (a, b) => doMeet(net.bands[a], net.bands[b]),
  countersAt: t => {
    const { all, by } = countersAt(t);
    return { all, by: Object.fromEntries([...by].map(([device, counters]) => [device.name, counters])) };
  },
  stateAt: (name, t) => stateAt(net.stations.find(station => station.name === name), t).words,
  look: () => ({ ...look, row: undefined }),
  drawn: () => ({ ...drawn, marks: drawn.marks.map(({ x, y, row }) => ({ x, y, line: row.line })) }),
  timeOf, show, pan, zoomTo: (from, to) => { Object.assign(look, { from, to }); pan(0); },
};

element("window").textContent = `half bits ${group(net.from)} to ${group(net.to)} of ${group(net.halfBits)}; ` +
  `${group(net.rows.length)} ${net.rows.length === 1 ? "line" : "lines"} of the log`;
showHeads();
look.speed = Math.max(0, SPEEDS.findIndex(speed => speed >= (net.to - net.from) / 30));
readView();
show();
netsimPage.opened = performance.now();
