"use strict";
// The page of a run: it reads the data lines, draws them, and answers questions about them (window.netsimPage).
// A tap is a station or a repeater's port on a segment. A band is a stretch in which a tap emits, on its way along the
// cable. A sending is one attempt at a frame, as a row of the log tells it. All times are half bits.

const SLOT_TIME = 1024, HEADER = 128, LONGEST_WAIT = 10, HALF_BITS_A_MICROSECOND = 20, METRES_A_HALF_BIT = 11.5;
const COLOURS = ["#0072b2", "#e69f00", "#009e73", "#cc79a7", "#56b4e9", "#d55e00", "#f0e442"];
const MOST_MARKS = 2000, LEAST_SPREAD = 0.005, MOST_BANDS = 2500, MOST_ROWS_TOLD = 40, LINES_TOLD = 11;
const SENDINGS = new Set(["sent", "collided", "given_up", "cut"]);
const errors = [];
addEventListener("error", event => errors.push(String(event.message)));
addEventListener("unhandledrejection", event => errors.push(String(event.reason)));
document.addEventListener("securitypolicyviolation", event => errors.push("refused: " + event.blockedURI));

// ---- The data

/** What the data lines say: segments with their taps and bands, stations with their sendings, repeaters, and rows. */
function readNet(text) {
  const net = { from: 0, to: 1, halfBits: 1, segments: [], stations: [], repeaters: [], bands: [], rows: [] };
  const readers = readersOf(net);
  for (const line of text.split("\n")) {
    if (line === "") continue;
    const words = line.split(" "), read = readers[words[0]];
    if (read) read(words, line);
    else errors.push("no data line: " + line);
  }
  net.segments.forEach(finishSegment);
  net.stations.forEach(station => station.sendings.sort((a, b) => a.start - b.start));
  return net;
}

/** By its first word what reads a data line. */
function readersOf(net) {
  const segments = new Map(), taps = new Map(), stations = new Map(), repeaters = new Map();
  const addTap = (tap, name) => {
    taps.set(tap.name, Object.assign(tap, { segment: segments.get(name), number: taps.size, bands: [] }));
    tap.segment.taps.push(tap);
    return tap;
  };
  const add = (list, map, item) => {
    map.set(item.name, item);
    list.push(item);
    return item;
  };
  return {
    window: words => { [net.from, net.to] = [+words[1], +words[2]]; },
    run: words => { net.halfBits = +words[1]; },
    segment: words => add(net.segments, segments, { name: words[1], taps: [], bands: [] }),
    station: words => {
      const colour = COLOURS[net.stations.length % COLOURS.length];
      const station = add(net.stations, stations, { name: words[1], colour, sendings: [] });
      station.tap = addTap({ name: words[1], place: +words[3], station }, words[2]);
    },
    repeater: words => add(net.repeaters, repeaters, { name: words[1], delay: +words[2], ports: [], tap: null }),
    port: words => {
      const repeater = repeaters.get(words[1]), name = `${words[1]}:${words[2]}`;
      repeater.ports.push(addTap({ name, place: +words[4], repeater }, words[3]));
    },
    signal: (words, line) => addBand(net, taps.get(words[1]), words, line),
    row: (words, line) => addRow(net, (words[2] === "repeater" ? repeaters : stations).get(words[3]), words, line),
  };
}

function addBand(net, tap, words, line) {
  const band = { line, tap, start: +words[2], end: +words[3], kind: words[4], port: +(words[5] || 0) };
  net.bands.push(band);
  tap.bands.push(band);
  tap.segment.bands.push(band);
}

function addRow(net, device, words, line) {
  const t = +words[1], row = {
    line: line.slice(4), index: net.rows.length, t, at: t, device, what: words[4], tap: null,
    frame: 0, start: 0, end: t, attempt: 16, hit: null, draw: 0, octets: 0, port: 0, why: "", halves: 0,
  };
  if (row.what === "dropped") {
    row.why = words[5];
    row.halves = +words[7];
  } else for (let i = 5; i + 1 < words.length; i += 2) row[words[i]] = words[i + 1] === "none" ? null : +words[i + 1];
  if (SENDINGS.has(row.what)) {
    if (row.hit !== null) row.at = row.start + row.hit;
    device.sendings.push(row);
  }
  row.tap = device.tap || device.ports[Math.max(row.port, 1) - 1];
  net.rows.push(row);
}

function finishSegment(segment) {
  segment.taps.sort((a, b) => a.place - b.place);
  segment.bands.sort((a, b) => a.start - b.start);
  const places = segment.taps.map(tap => tap.place);
  segment.low = places.length ? places[0] : 0;
  segment.span = places.length ? places[places.length - 1] - places[0] : 0;
  let latest = 0;
  segment.latest = segment.bands.map(band => (latest = Math.max(latest, band.end)));
}

/** How many items of a sorted list have a key below a bound. */
function countBelow(list, bound, key) {
  let low = 0, high = list.length;
  while (low < high) {
    const middle = (low + high) >> 1;
    if (key(list[middle]) < bound) low = middle + 1;
    else high = middle;
  }
  return low;
}

// ---- Questions: who hears whom, what a station does, what was counted

const away = (band, tap) => Math.abs(band.tap.place - tap.place);

/** The bands of a segment that may be somewhere on it from one half bit to below another, in order of their starts. */
function bandsNear(segment, from, to) {
  const found = [], { bands, latest, span } = segment;
  for (let i = countBelow(bands, to, band => band.start) - 1; i >= 0 && latest[i] + span > from; i--) {
    if (bands[i].end + span > from) found.push(bands[i]);
  }
  return found.reverse();
}

/** The bands that a tap hears in a half bit, or in some half bit from it to below another. */
function heardBy(tap, from, to = from + 1) {
  return bandsNear(tap.segment, from, to).filter(band => {
    const later = away(band, tap);
    return band.tap !== tap && band.start + later < to && band.end + later > from;
  });
}

function sendingAt(station, t) {
  const sending = station.sendings[countBelow(station.sendings, t + 1, one => one.start) - 1];
  return sending && t < sending.end ? sending : null;
}

/** Where a band comes from: a station with its sending (null where no row tells it), or a repeater, and the repeaters
    that it came through. */
function sourceOf(band) {
  if (band.source === undefined) band.source = findSource(band);
  return band.source;
}

function findSource(band) {
  const { station, repeater } = band.tap;
  if (station) return { station, sending: sendingAt(station, band.start), through: [] };
  for (const t of band.kind === "repeat" ? [band.start, band.end - 1] : []) {
    const heard = heardBy(repeater.ports[band.port - 1], t - repeater.delay);
    if (heard.length !== 1) continue;
    const source = sourceOf(heard[0]);
    return { ...source, through: [...source.through, repeater.name] };
  }
  return { station: null, repeater, sending: null, through: [] };
}

function nameOfBand(band) {
  const source = sourceOf(band);
  const ways = source.through.length > 2 ? `${source.through.length} repeaters` : source.through.join(" and ");
  const through = ways && ` through ${ways}`;
  if (source.station) return source.station.name + through;
  return `${source.repeater.name}'s ${{ jam: "jam", extend: "extension" }[band.kind] || "signal"}${through}`;
}

function namesOf(bands) {
  const names = [...new Set(bands.map(nameOfBand))];
  if (names.length > 4) names.splice(3, names.length, `${names.length - 3} others`);
  return names.length > 1 ? `${names.slice(0, -1).join(", ")} and ${names[names.length - 1]}` : names[0] || "a signal";
}

/** The bands that a station's row of a reception is about. */
function bandsOfRow(row) {
  return heardBy(row.device.tap, row.what === "dropped" ? row.t - row.halves : row.t - 1, row.t);
}

function jamBegin(sending) {
  if (sending.hit === null) return Infinity;
  return sending.start + (sending.hit < HEADER ? HEADER : 2 * (Math.floor(sending.hit / 2) + 1));
}

/** Whether a station that hears these bands is deaf: what it hears began before the end of a sending of its own. */
function isDeaf(station, t, heard) {
  const before = station.sendings[countBelow(station.sendings, t + 1, one => one.start) - 1];
  if (!before) return false;
  let since = t;
  while (heard.length && since > before.end) {
    since = Math.min(...heard.map(band => band.start + away(band, station.tap)));
    heard = heardBy(station.tap, since - 1);
  }
  return since <= before.end;
}

/** What a station does in a half bit, with the words for it. */
function stateAt(station, t) {
  const state = { station: station.name, halfBit: t, sending: null, until: null, hears: [], words: "" };
  const own = sendingAt(station, t);
  if (own) {
    state.sending = own;
    state.doing = t >= jamBegin(own) ? "jams" : "sends";
    const heard = state.doing === "sends" && own.hit !== null && t >= own.at ? "; heard a collision" : "";
    state.words = `${state.doing === "jams" ? "jams for" : "sends"} frame ${own.frame}, attempt ${own.attempt}${heard}`;
    return state;
  }
  const said = [], heard = heardBy(station.tap, t);
  state.hears = heard;
  const last = station.sendings[countBelow(station.sendings, t + 1, one => one.start) - 1];
  if (last && last.what === "collided") {
    state.until = last.end + SLOT_TIME * last.draw;
    state.doing = t < state.until ? "backs off" : "waits";
    const turn = `waits for its turn with frame ${last.frame}`;
    said.push(t < state.until ? `backs off until ${toldTime(state.until)}` : turn);
  }
  if (heard.length === 1) {
    const verb = isDeaf(station, t, heard) ? "is deaf to" : said.length ? "hears" : "receives from";
    said.push(`${verb} ${nameOfBand(heard[0])}`);
  } else if (heard.length > 1) said.push(`hears a collision of ${namesOf(heard)}`);
  state.doing = state.doing || (heard.length ? "receives" : "silent");
  state.words = said.join("; ") || "silent";
  return state;
}

const STATION_COUNTS = ["sent", "collided", "late", "given_up", "cut", "received", "dropped"];
const REPEATER_COUNTS = ["clash", "closed", "opened", "halted"], COUNTED = [...STATION_COUNTS, ...REPEATER_COUNTS];
const newCounters = () => Object.fromEntries(COUNTED.map(word => [word, 0]));

/** What the rows from the window's begin to a half bit, this one too, count: by device, and in all. */
function countersAt(t) {
  const { kept } = countersAt, counted = kept && kept.t <= t ? kept : { next: 0, all: newCounters(), by: new Map() };
  for (; counted.next < net.rows.length && net.rows[counted.next].t <= t; counted.next++) {
    const row = net.rows[counted.next];
    if (row.t < net.from) continue;
    if (!counted.by.has(row.device)) counted.by.set(row.device, newCounters());
    for (const counters of [counted.all, counted.by.get(row.device)]) {
      counters[row.what]++;
      if (row.what === "given_up") counters.collided++;
      if (isLate(row)) counters.late++;
    }
  }
  counted.t = t;
  countersAt.kept = counted;
  return counted;
}

/** How many half bits from the window's begin to below t a station sent for, in frames that were sent and others. */
function sharesAt(station, t) {
  const shares = { sent: 0, lost: 0 };
  for (const sending of station.sendings) {
    if (sending.start >= t) break;
    const told = sending.what === "sent" ? "sent" : "lost";
    shares[told] += Math.max(0, Math.min(sending.end, t) - Math.max(sending.start, net.from));
  }
  return shares;
}

const isCollision = row => row.what === "collided" || row.what === "given_up";
const isLate = row => isCollision(row) && row.hit >= SLOT_TIME;
const KINDS = {
  collision: isCollision, drop: row => row.what === "dropped", late: isLate,
  given_up: row => row.what === "given_up", closed: row => row.what === "closed", row: () => true,
};

/** The rows of a kind whose half bit, that of the hit for a collision, lies in the window, in order of it. */
function rowsOfKind(kind) {
  const kept = rowsOfKind.kept || (rowsOfKind.kept = {});
  if (!kept[kind]) {
    const rows = net.rows.filter(row => KINDS[kind](row) && row.at >= net.from && row.at < net.to);
    kept[kind] = rows.sort((a, b) => a.at - b.at);
  }
  return kept[kind];
}

function next(kind, t) {
  const rows = rowsOfKind(kind);
  return rows[countBelow(rows, Math.floor(t) + 1, row => row.at)] || null;
}

function previous(kind, t) {
  const rows = rowsOfKind(kind), count = countBelow(rows, Math.floor(t), row => row.at);
  return count ? rows[countBelow(rows, rows[count - 1].at, row => row.at)] : null;
}

// ---- Words

const group = number => number.toLocaleString("en-US");
const counted = (number, noun) => `${group(number)} ${noun}${number === 1 ? "" : "s"}`;
const microseconds = halfBits => `${group(halfBits / HALF_BITS_A_MICROSECOND)}\u00a0\u00b5s`;
const UNITS = [
  { name: "half bits", short: "half bits", halfBits: 1 },
  { name: "microseconds", short: "\u00b5s", halfBits: HALF_BITS_A_MICROSECOND },
  { name: "metres of cable", short: "m of cable", halfBits: 1 / METRES_A_HALF_BIT },
];

function toldTime(halfBits) {
  if (look.unit === 0) return counted(Math.round(halfBits), "half bit");
  const unit = UNITS[look.unit], digits = look.unit === 1 ? 2 : 0;
  return `${(halfBits / unit.halfBits).toLocaleString("en-US", { maximumFractionDigits: digits })} ${unit.short}`;
}

function drawWords(row) {
  const most = 2 ** Math.min(row.attempt, LONGEST_WAIT) - 1;
  const wait = row.draw ? `waits ${microseconds(SLOT_TIME * row.draw)}` : "may try again at once";
  return `drew ${row.draw} of 0 to ${group(most)}: ${wait}`;
}

const SENTENCES = {
  sent: row => `${row.device.name} sent frame ${row.frame} at attempt ${row.attempt}, ` +
    `in ${microseconds(row.t - row.start)}`,
  collided: row => `${row.device.name} heard ${heardAtHit(row)}, jammed, ${drawWords(row)}`,
  given_up: row => `${row.device.name} heard ${heardAtHit(row)} at attempt 16, jammed, and gave frame ${row.frame} up`,
  cut: row => `the run ended while ${row.device.name} was sending frame ${row.frame}, attempt ${row.attempt}`,
  received: row => `${row.device.name} received ${counted(row.octets, "octet")} from ${namesOf(bandsOfRow(row))}`,
  dropped: row => `${row.device.name} dropped ${counted(row.halves, "half bit")} ${WHYS[row.why]}: ` +
    `it heard ${namesOf(bandsOfRow(row))}`,
  clash: row => `${row.device.name} hears a collision and jams all its ports`,
  closed: row => `${row.device.name} closed port ${row.port}: nothing comes in by it until it opens again`,
  opened: row => `${row.device.name} opened port ${row.port} again`,
  halted: row => `${row.device.name} halts port ${row.port} after 100,000 half bits of output, for 192`,
};
const WHYS = {
  fragment: "as a fragment", too_long: "as too long", fcs: "for a wrong check sequence", align: "as not aligned",
  damaged: "as damaged",
};

function heardAtHit(row) {
  const late = isLate(row) ? ", past the slot time" : "";
  return `${namesOf(heardBy(row.device.tap, row.at))} after ${counted(row.hit, "half bit")}${late}`;
}

const sentence = row => SENTENCES[row.what](row);

function bandWords(band) {
  const source = sourceOf(band), sending = source.sending;
  const frame = sending ? ` frame ${sending.frame}, attempt ${sending.attempt}` : "";
  if (band.tap.station) return `${band.tap.name} ${band.kind === "jam" ? "jams for" : "sends"}${frame || " a frame"}`;
  const what = { repeat: `repeats ${source.station ? source.station.name + (frame && ":" + frame) : "a signal"}`,
    extend: "extends a fragment", jam: "jams" }[band.kind];
  return `${band.tap.name} ${what}`;
}

const net = readNet(document.getElementById("data").textContent);
