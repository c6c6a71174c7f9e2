"use strict";
// What of the run is shown, in which colours, and where on the canvas.

const root = document.documentElement, element = id => document.getElementById(id);
const plot = element("plot"), cables = element("cables"), legend = element("legend");
const look = {
  from: net.from, to: net.to, spread: 1, down: 0, at: net.from, row: null, frame: null,
  isSpread: false, unit: 0, text: 0, dark: false, speed: 0,
};
const place = { left: 100, top: 30, right: 800, bottom: 400, em: 14 };
const drawn = { bands: [], marks: [], pictures: 0, isDense: false, rows: true };
let theme = {};

function setTheme() {
  root.classList.toggle("dark", look.dark);
  root.style.fontSize = `${[16, 20, 25, 32][look.text]}px`;
  const style = getComputedStyle(root), names = ["back", "fore", "dim", "line", "panel", "mark"];
  theme = Object.fromEntries(names.map(name => [name, style.getPropertyValue("--" + name).trim()]));
  theme.bad = look.dark ? "#ff7b72" : "#b3001b";
  theme.strength = look.dark ? 0.55 : 0.42;
  theme.repeater = look.dark ? "#8b97a5" : "#7a8590";
  theme.hatch = makePattern(8, g => [-8, 0, 8].forEach(x => line(g, [[x, 8], [x + 8, 0]], theme.fore, 1.3)));
  theme.stripes = makePattern(5, g => line(g, [[2.5, 0], [2.5, 5]], theme.fore, 1));
  place.em = 14 * [1, 1.25, 1.6, 2][look.text];
  layOutLanes();
}

function makePattern(size, draw) {
  const scale = 2, canvas = document.createElement("canvas");
  canvas.width = canvas.height = size * scale;
  const g = canvas.getContext("2d");
  g.scale(scale, scale);
  draw(g);
  const pattern = g.createPattern(canvas, "repeat");
  pattern.setTransform(new DOMMatrix().scale(1 / scale));
  return { pattern };
}

/** Puts the lanes of all taps one below the other: as far apart as the taps are, but at least a line of text. */
function layOutLanes() {
  const row = 2 * place.em;
  let top = 0;
  place.gap = 4 * place.em;
  for (const segment of net.segments) {
    segment.top = top;
    let y = top + row;
    const scale = Math.min(place.em, (18 * place.em) / Math.max(segment.span, 1));
    segment.taps.forEach((tap, i) => {
      const wanted = segment.top + 1.6 * row + scale * (tap.place - segment.low);
      tap.y = i ? Math.max(y + row, wanted) : wanted;
      if (i) place.gap = Math.min(place.gap, tap.y - y);
      y = tap.y;
    });
    segment.bottom = y + 0.9 * row;
    top = segment.bottom + 0.3 * row;
  }
  place.height = top;
}

const xOf = t => place.left + ((t - look.from) / (look.to - look.from)) * (place.right - place.left);
const timeOf = x => look.from + ((x - place.left) / (place.right - place.left)) * (look.to - look.from);
const laneHeight = () => place.gap * look.spread;
const yOf = y => place.top + (y - look.down) * look.spread;

/** The places of a segment at which its fronts may bend, each with its height: none where they go on straight. */
function bendsOf(segment) {
  const { taps, low, span } = segment, bends = [], edge = Math.min(0.7 * place.em, 0.4 * laneHeight());
  if (!taps.length) return bends;
  taps.forEach((tap, i) => {
    const y = yOf(tap.y), last = bends[bends.length - 1], after = taps[i + 1];
    const part = last && after ? (tap.place - last.place) / (after.place - last.place) : 0;
    if (!part || Math.abs(last.y + (yOf(after.y) - last.y) * part - y) > 0.3) bends.push({ place: tap.place, y });
  });
  return [{ place: low, y: bends[0].y - edge }, ...bends, { place: low + span, y: bends[bends.length - 1].y + edge }];
}

/** The place on a segment of a height on the canvas. */
function placeOf(segment, y) {
  const taps = segment.taps;
  let i = taps.findIndex(tap => yOf(tap.y) > y);
  if (i === 0) return segment.low;
  if (i < 0) return segment.low + segment.span;
  const [a, b] = [taps[i - 1], taps[i]];
  return a.place + ((y - yOf(a.y)) / (yOf(b.y) - yOf(a.y))) * (b.place - a.place);
}

function fit() {
  [look.from, look.to] = [net.from, net.to];
  fitLanes();
}

function fitLanes() {
  look.down = 0;
  look.isSpread = false;
  look.spread = Math.min(1.5, Math.max(LEAST_SPREAD, (place.bottom - place.top) / place.height));
}

/** Shows so many half bits, with the half bit at `t` staying where it is; within the window. */
function zoom(factor, t) {
  const wide = Math.min(Math.max((look.to - look.from) * factor, 4), net.to - net.from);
  const part = (t - look.from) / (look.to - look.from);
  look.from = t - part * wide;
  look.to = look.from + wide;
  pan(0);
}

function pan(halfBits) {
  const wide = look.to - look.from;
  look.from = Math.min(Math.max(look.from + halfBits, net.from), net.to - wide);
  look.to = look.from + wide;
  changed();
}

function scrollDown(pixels) {
  const room = Math.max(0, place.height - (place.bottom - place.top) / look.spread);
  look.down = Math.min(Math.max(look.down + pixels / look.spread, 0), room);
  changed();
}

function spreadLanes(factor, y) {
  const kept = look.down + (y - place.top) / look.spread;
  look.spread = Math.min(4, Math.max(LEAST_SPREAD, look.spread * factor));
  look.down = kept - (y - place.top) / look.spread;
  look.isSpread = true;
  scrollDown(0);
}
