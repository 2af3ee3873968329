// What is seen of the lanes, and how parts of them are drawn.

const LABELS = 192;
const AXIS = 52;
const LEAST_PER_PIXEL = 0.02;
// The colours of Okabe and Ito, which colour-blind people tell from each other.
const GREY = "#999999";
const SKY = "#56B4E9";
const ORANGE = "#E69F00";
const GREEN = "#009E73";
const YELLOW = "#F0E442";
const BLUE = "#0072B2";
const VERMILION = "#D55E00";
const PURPLE = "#CC79A7";
// Stations of requests, by their numbers. Each has a letter too.
const STATION_COLOURS = [GREY, SKY, ORANGE, GREEN, YELLOW, YELLOW, BLUE];
const STATION_LETTERS = "OLBVKRA";

const seen = { from: 1, perPixel: 1, top: 0, cursor: 1, chosen: null, width: 0, height: 0 };
const theme = {};
const hatches = {};
let pen = null;
// What is under the pointer: places with what is said or chosen there.
let hits = [];
let isAsked = false;

const $ = (name) => document.getElementById(name);

// A number of things, as `1 request` and `2 requests`.
const counted = (number, name) => `${number.toLocaleString()} ${name}${number === 1 ? "" : "s"}`;

function spanSeen() {
  return (seen.width - LABELS) * seen.perPixel;
}

function xOf(step) {
  return LABELS + (step - seen.from) / seen.perPixel;
}

function stepAt(x) {
  return seen.from + (x - LABELS) * seen.perPixel;
}

function keepInside(totalHeight) {
  const most = (run.steps + 20) / Math.max(1, seen.width - LABELS);
  seen.perPixel = Math.max(Math.min(seen.perPixel, most), LEAST_PER_PIXEL);
  const last = run.steps + 10 - Math.min(spanSeen(), run.steps + 20);
  seen.from = Math.max(-10, Math.min(seen.from, last));
  const room = totalHeight - seen.height + AXIS + 20;
  seen.top = Math.max(0, Math.min(seen.top, room));
}

function readTheme() {
  const style = getComputedStyle(document.documentElement);
  for (const name of ["back", "text", "dim", "line", "lane", "hot", "chosen", "mark"]) {
    theme[name] = style.getPropertyValue(`--${name}`).trim();
  }
}

function write(words, x, y, colour = theme.text) {
  pen.fillStyle = colour;
  pen.fillText(words, x, y);
}

// Words whose last sign is before x.
function writeBefore(words, x, y, colour) {
  write(words, x - pen.measureText(words).width, y, colour);
}

function box(x, y, width, height, colour) {
  pen.fillStyle = colour;
  pen.fillRect(x, y, width, height);
}

// Boxes of one row that touch and look alike are drawn as one, by the next one that differs.
const waiting = { x: 0, y: 0, width: 0, height: 0, colour: "" };

function paint(x, y, width, height, colour) {
  const isAlike = colour === waiting.colour && y === waiting.y && height === waiting.height;
  if (isAlike && x >= waiting.x && x <= waiting.x + waiting.width + 0.5) {
    waiting.width = Math.max(waiting.width, x + width - waiting.x);
    return;
  }
  endPaint();
  Object.assign(waiting, { x, y, width, height, colour });
}

function endPaint() {
  if (waiting.width) box(waiting.x, waiting.y, waiting.width, waiting.height, waiting.colour);
  waiting.width = 0;
  waiting.colour = "";
}

function stroke(points, colour, width = 1) {
  pen.strokeStyle = colour;
  pen.lineWidth = width;
  pen.beginPath();
  points.forEach(([x, y], at) => (at ? pen.lineTo(x, y) : pen.moveTo(x, y)));
  pen.stroke();
}

function cross(x, y, colour) {
  stroke([[x - 4, y - 4], [x + 4, y + 4]], colour, 2);
  stroke([[x + 4, y - 4], [x - 4, y + 4]], colour, 2);
}

function triangle(x, y, colour) {
  pen.fillStyle = colour;
  pen.beginPath();
  pen.moveTo(x - 5, y);
  pen.lineTo(x + 5, y);
  pen.lineTo(x, y + 11);
  pen.fill();
}

function hatched(colour) {
  if (hatches[colour]) return hatches[colour];
  const tile = document.createElement("canvas");
  tile.width = 6;
  tile.height = 6;
  const tilePen = tile.getContext("2d");
  tilePen.strokeStyle = colour;
  tilePen.lineWidth = 2;
  for (const start of [-6, 0, 6]) {
    tilePen.beginPath();
    tilePen.moveTo(start, 6);
    tilePen.lineTo(start + 6, 0);
    tilePen.stroke();
  }
  hatches[colour] = pen.createPattern(tile, "repeat");
  return hatches[colour];
}

function hit(x, y, width, height, what) {
  hits.push([x, y, width, height, what]);
}

function hitAt(x, y) {
  for (let at = hits.length - 1; at >= 0; at -= 1) {
    const [left, top, width, height, what] = hits[at];
    if (x >= left && x <= left + width && y >= top && y <= top + height) return what;
  }
  return null;
}

// Draws spans of steps. Those that fall on one pixel are drawn as one.
function drawSpans(spans, y, height, how) {
  const { first, last } = spans;
  const end = stepAt(seen.width);
  let at = Math.max(0, after(first, seen.from) - 1);
  while (at < first.length && first[at] <= end) {
    const x = Math.max(LABELS, xOf(first[at]));
    const until = Math.min(seen.width, xOf(last[at] + 1));
    const width = Math.max(1, until - x);
    if (until >= LABELS) drawSpan(first[at], last[at], [x, y, width, height], how);
    at = width > 1 ? at + 1 : Math.max(at + 1, after(first, stepAt(x + 1)));
  }
}

function drawSpan(first, last, [x, y, width, height], how) {
  box(x, y, width, height, how.colour);
  if (how.word && width > 8 * how.word.length) write(how.word, x + 3, y + height - 1);
  const tip = () => `${how.tip}: ${stepName(first)} to ${last.toLocaleString()}, ` +
    durationName(last - first + 1);
  hit(x, y, width, height, { tip, step: first });
}

// The axis: rounds above, steps below, and the aborts of all directions.
function drawAxis(jumps) {
  box(0, 0, seen.width, AXIS, theme.back);
  const distance = Math.max(1, niceNumber(seen.perPixel * 110));
  let step = Math.ceil(Math.max(seen.from, 1) / distance) * distance;
  for (; step <= run.steps && xOf(step) < seen.width; step += distance) {
    write(step.toLocaleString(), xOf(step) + 2, 30, theme.dim);
    stroke([[xOf(step) + 0.5, 22], [xOf(step) + 0.5, seen.height]], theme.line);
  }
  run.segments.forEach(drawRounds);
  writeBefore("round", LABELS - 8, 14);
  writeBefore("step", LABELS - 8, 30, theme.dim);
  writeBefore("aborts, retries", LABELS - 8, 47, theme.dim);
  for (const jump of jumps) drawJump(jump);
}

function niceNumber(value) {
  const power = 10 ** Math.floor(Math.log10(value));
  const front = value / power;
  if (front <= 1) return power;
  return (front <= 2 ? 2 : front <= 5 ? 5 : 10) * power;
}

function drawRounds([first, rounds, before]) {
  const distance = Math.max(1, niceNumber((seen.perPixel * 90) / run.round_steps));
  const start = Math.max(0, Math.floor((seen.from - first) / run.round_steps));
  let number = Math.ceil((before + start + 1) / distance) * distance;
  for (; number <= before + rounds; number += distance) {
    const x = xOf(first + (number - before - 1) * run.round_steps);
    if (x > seen.width) break;
    if (x < LABELS) continue;
    write(number.toLocaleString(), x + 2, 14);
    stroke([[x + 0.5, 3], [x + 0.5, 16]], theme.line);
  }
}

function drawJump(jump) {
  const x = xOf(jump.step);
  if (jump.key === "w" || x > seen.width || xOf(jump.until) < LABELS) return;
  if (jump.key === "r") {
    const left = Math.max(LABELS, x);
    box(left, 44, Math.max(1.5, xOf(jump.until) - left), 3, VERMILION);
  } else if (x >= LABELS) {
    triangle(x, 35, jump.key === "m" ? theme.mark : theme.hot);
    hit(x - 5, 34, 10, 14, { tip: () => `${jump.words}: ${stepName(jump.step)}`, step: jump.step });
  }
}
