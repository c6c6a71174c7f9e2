"use strict";
// A pen with those calls of a canvas's context that the drawing needs; it writes an SVG.

const PATTERNS = { hatch: [8, "M-2 10L10 -2M-2 2L2 -2M6 10L10 6"], stripes: [5, "M2.5 0V5"] };

class SvgPen {
  constructor(wide, high) {
    Object.assign(this, { wide, high, parts: [], states: [], clips: 0, open: 0, way: "", globalAlpha: 1, dash: [] });
    this.measure = document.createElement("canvas").getContext("2d");
  }

  // Ways

  beginPath() { this.way = ""; }
  moveTo(x, y) { this.way += `M${x.toFixed(1)} ${y.toFixed(1)}`; }
  lineTo(x, y) { this.way += `L${x.toFixed(1)} ${y.toFixed(1)}`; }
  closePath() { this.way += "z"; }
  rect(...box) {
    const [x, y, wide, high] = box.map(length => length.toFixed(1));
    this.way += `M${x} ${y}h${wide}v${high}h${-wide}z`;
  }

  arc(x, y, r) { this.way += `M${x - r} ${y}a${r} ${r} 0 1 0 ${2 * r} 0a${r} ${r} 0 1 0 ${-2 * r} 0z`; }

  // What is drawn

  filling() {
    const name = Object.keys(PATTERNS).find(one => theme[one].pattern === this.fillStyle);
    return `fill="${name ? `url(#${name})` : this.fillStyle}" opacity="${this.globalAlpha}"`;
  }

  stroking() {
    return `fill="none" stroke="${this.strokeStyle}" stroke-width="${this.lineWidth}" opacity="${this.globalAlpha}"` +
      (this.dash.length ? ` stroke-dasharray="${this.dash.join(" ")}"` : "");
  }

  setLineDash(dash) { this.dash = dash; }
  fill() { this.parts.push(`<path d="${this.way}" ${this.filling()}/>`); }
  stroke() { this.parts.push(`<path d="${this.way}" ${this.stroking()}/>`); }

  fillRect(...box) {
    this.beginPath();
    this.rect(...box);
    this.fill();
  }

  strokeRect(...box) {
    this.beginPath();
    this.rect(...box);
    this.stroke();
  }

  measureText(text) {
    this.measure.font = this.font;
    return this.measure.measureText(text);
  }

  addText(text, x, y, paint) {
    const anchor = { left: "start", center: "middle", right: "end" }[this.textAlign];
    const [, bold, size] = /(bold )?([\d.]+)px/.exec(this.font), weight = bold ? ` font-weight="bold"` : "";
    this.parts.push(`<text x="${x.toFixed(1)}" y="${y.toFixed(1)}" dy="0.35em" text-anchor="${anchor}" ` +
      `font-size="${size}"${weight} ${paint}>${text}</text>`);
  }

  fillText(text, x, y) { this.addText(text, x, y, this.filling()); }
  strokeText(text, x, y) { this.addText(text, x, y, this.stroking()); }

  drawImage(image, left, top, imageWide, imageHigh, x, y, wide, high) {
    const part = document.createElement("canvas");
    [part.width, part.height] = [imageWide, imageHigh];
    part.getContext("2d").drawImage(image, left, top, imageWide, imageHigh, 0, 0, imageWide, imageHigh);
    this.parts.push(`<image href="${part.toDataURL()}" x="${x}" y="${y}" width="${wide}" height="${high}" ` +
      `preserveAspectRatio="none" style="image-rendering:pixelated"/>`);
  }

  // Clips

  save() { this.states.push([this.open, this.globalAlpha]); }

  clip() {
    this.clips++;
    const name = `clip${this.clips}`;
    this.parts.push(`<clipPath id="${name}"><path d="${this.way}"/></clipPath><g clip-path="url(#${name})">`);
    this.open++;
  }

  restore() {
    const [open, alpha] = this.states.pop();
    for (; this.open > open; this.open--) this.parts.push("</g>");
    this.globalAlpha = alpha;
  }

  /** The whole SVG. */
  written() {
    const patterns = Object.entries(PATTERNS).map(([name, [size, way]]) =>
      `<pattern id="${name}" width="${size}" height="${size}" patternUnits="userSpaceOnUse">` +
      `<path d="${way}" stroke="${theme.fore}" stroke-width="1.2"/></pattern>`);
    return `<svg xmlns="http://www.w3.org/2000/svg" width="${this.wide}" height="${this.high}" ` +
      `viewBox="0 0 ${this.wide} ${this.high}" font-family="DejaVu Sans, Segoe UI, sans-serif">\n` +
      `<defs>${patterns.join("")}</defs>\n${this.parts.join("\n")}\n</svg>\n`;
  }
}
