// The lanes: a host's requests, a direction's flits, queues and tokens, a cube's queues.

const MOST_ROWS = 20;
const NARROW = 14;
const GAP = 1;
const WHAT_COLOURS = [GREY, ORANGE, ORANGE, GREY, GREY, GREEN, BLUE, VERMILION];
const TOKEN_COLOURS = [BLUE, SKY, ORANGE, GREY, PURPLE];
const TOKEN_NAMES = ["held by the sender", "in transit", "used in the buffer", "due", "returning"];
const QUEUE_COLOURS = {
  output: GREY, buffer: ORANGE, vault: GREEN, bank: YELLOW, registers: YELLOW, answers: BLUE,
};
let lanes = [];
let lanesHeight = 0;

function isWanted(group) {
  return document.querySelector(`[data-group=${group}]`).checked;
}

function buildLanes() {
  lanes = [];
  if (isWanted("requests")) for (let host = 0; host < run.hosts; host += 1) addHost(host);
  for (const direction of run.directions) addDirection(direction);
  if (isWanted("cubes")) {
    const kinds = ["vault", "bank", "registers", "answers"];
    const busy = run.queues.filter((queue) => queue.most && kinds.includes(queue.kind));
    for (const queue of busy) addQueue(queue, queue.name, "");
  }
  lanesHeight = lanes.reduce((sum, lane) => sum + lane.height + GAP, 0);
}

function addLane(height, label, words, draw, more = {}) {
  lanes.push({ height, label, words, draw, ...more });
}

function addQueue(queue, label, words) {
  addLane(28, label, words, (y, height) => drawQueue(queue, y, height));
}

function addHost(host) {
  const mine = run.requests.filter((request) => request.host === host);
  const rows = rowsOf(mine);
  const words = counted(mine.length, "request");
  addLane(18, `host ${host}`, words, (y) => drawGive(host, y), { isHead: true });
  if (mine.length > MOST_ROWS) {
    const times = timesOf(mine);
    addLane(40, "", "steps until the end", (y, height) => drawTimes(times, y, height));
  }
  const height = rows.length > 8 ? 10 : 15;
  for (const row of rows) {
    addLane(height, "", "", (y) => drawRequests(row, y, height), { row });
  }
}

// Requests in rows, so that bars of a row don't lie over one another while there are rows left.
function rowsOf(requests) {
  const rows = [];
  for (const request of requests) {
    let row = rows.find((it) => it.end <= request.first);
    if (!row && rows.length < MOST_ROWS) {
      row = { requests: [], end: 0 };
      rows.push(row);
    }
    row = row || rows.reduce((a, b) => (b.end < a.end ? b : a));
    row.requests.push(request);
    row.end = Math.max(row.end, request.last);
  }
  for (const row of rows) {
    row.firsts = Uint32Array.from(row.requests, (request) => request.first);
    row.lasts = Uint32Array.from(row.requests, (request) => request.last);
  }
  return rows;
}

function addDirection(direction) {
  const { number, from, to, output, buffer } = direction;
  if (isWanted("flits")) {
    const draw = (y) => drawState(direction, y);
    const more = { isHead: true, direction: number };
    addLane(20, `direction ${number}`, `${from} → ${to}`, draw, more);
    addLane(34, "", "flits", (y, height) => drawFlits(direction, y, height));
  }
  if (isWanted("queues")) {
    addQueue(output, "", "output queue, packets");
    addQueue(buffer, "", "buffer, packets");
  }
  if (isWanted("tokens")) {
    addLane(34, "", "tokens: held on top", (y, height) => drawTokens(direction, y, height));
  }
}

// Why a host can't give.
function drawGive(host, y) {
  for (const wait of run.waits.filter(({ step }) => step === `give ${host}`)) {
    const colour = hatched(wait.cause === "full" ? VERMILION : PURPLE);
    const tip = `host ${host} can't give: ${wait.cause}`;
    drawSpans(wait, y + 5, 8, { colour, tip, word: wait.cause });
  }
}

function drawRequests(row, y, height) {
  const end = stepAt(seen.width);
  let at = lowest(row.lasts, seen.from);
  while (at < row.requests.length && row.firsts[at] <= end) {
    const request = row.requests[at];
    const x = Math.max(LABELS, xOf(request.first));
    const width = Math.max(1, Math.min(seen.width, xOf(request.last)) - x);
    if (width >= NARROW || request === seen.chosen?.request) {
      endPaint();
      drawStations(request, y, height);
      drawEnds(request, [x, y, width, height]);
    } else paint(x, y + 2, width > 4 ? width - 1 : width, height - 4, colourOfRequest(request));
    at = width > 1 ? at + 1 : Math.max(at + 1, lowest(row.firsts, stepAt(x + 1)));
  }
  endPaint();
  hit(LABELS, y, seen.width - LABELS, height, { row });
}

function colourOfRequest(request) {
  return STATION_COLOURS[request.longest];
}

// The request of a row whose bar is at a step, or within a few pixels of it.
function requestAt(row, step) {
  const at = lowest(row.lasts, step - 2 * seen.perPixel);
  const request = row.requests[at];
  return request && request.first <= step + 2 * seen.perPixel ? request : null;
}

// The first place of a number that isn't less.
function lowest(numbers, value) {
  return after(numbers, value - 0.5);
}

function drawStations(request, y, height) {
  const { step, station, place } = run.visits;
  for (let at = request.from; at < request.to; at += 1) {
    if (station[at] >= TAKEN) continue;
    const left = Math.max(LABELS, xOf(step[at]));
    const right = Math.min(seen.width, xOf(leaves(request, at)));
    if (right < LABELS || left > seen.width) continue;
    box(left, y + 2, Math.max(right - left, 0.5), height - 4, STATION_COLOURS[station[at]]);
    if (station[at] === LINE && right - left > 2) {
      drawAborts(run.directions[place[at]], left, right, y + 2, height - 4);
    }
    const colour = station[at] === ANSWERS ? "#fff" : "#000";
    if (height > 12 && right - left > 11) {
      write(STATION_LETTERS[station[at]], left + 2, y + height - 4, colour);
    }
  }
}

// Hatched: the receiver ahead waits for the end of a retry.
function drawAborts(direction, left, right, y, height) {
  direction.modes.forEach(({ step, mode }, at) => {
    if (run.modes[mode] !== "abort") return;
    const next = direction.modes[at + 1];
    const start = Math.max(left, xOf(step));
    const end = Math.min(right, next ? xOf(next.step) : right);
    if (end > start) box(start, y, Math.max(1, end - start), height, hatched(VERMILION));
  });
}

function drawEnds(request, [x, y, width, height]) {
  const isLost = !request.isOpen && request.end > TAKEN && request.end !== SILENT;
  if (isLost) cross(Math.min(x + width + 5, seen.width - 5), y + height / 2, theme.hot);
  if (request !== seen.chosen?.request) return;
  pen.strokeStyle = theme.chosen;
  pen.lineWidth = 2;
  pen.strokeRect(x, y + 1, width, height - 2);
}

function timesOf(requests) {
  const steps = Uint32Array.from(requests, ({ first, last }) => last - first);
  return {
    firsts: Uint32Array.from(requests, ({ first }) => first),
    steps,
    most: steps.reduce((a, b) => Math.max(a, b), 1),
  };
}

// By the step at which requests were given: the longest as bars, the mean as a line.
function drawTimes({ firsts, steps, most }, y, height) {
  const base = y + height - 2;
  const scale = (height - 8) / most;
  for (let x = LABELS; x < seen.width; x += 2) {
    const from = lowest(firsts, stepAt(x));
    const to = lowest(firsts, stepAt(x + 2));
    if (from === to) continue;
    let [longest, sum] = [0, 0];
    for (let at = from; at < to; at += 1) {
      longest = Math.max(longest, steps[at]);
      sum += steps[at];
    }
    box(x, base - longest * scale, 2, longest * scale, SKY);
    box(x, base - (sum / (to - from)) * scale - 1, 2, 2, theme.text);
  }
  writeBefore(most.toLocaleString(), LABELS - 6, y + 10, theme.dim);
  const tip = () => "requests by the step at which they were given: the longest, the mean (line)";
  hit(LABELS, y, seen.width - LABELS, height, { tip });
}

// What a receiver waits for, where its sender goes back, and what happened there.
function drawState(direction, y) {
  direction.modes.forEach(({ step, mode }, at) => {
    const next = direction.modes[at + 1];
    const until = next ? next.step : run.steps + 1;
    const left = Math.max(LABELS, xOf(step));
    const width = Math.max(1.5, Math.min(seen.width, xOf(until)) - left);
    if (run.modes[mode] === "good" || xOf(until) < LABELS || left > seen.width) return;
    const isTraining = run.modes[mode] === "train";
    const words = isTraining ? "trains" : at < 2 ? "starts up" : "aborted: waits for a retry";
    box(left, y + 5, width, 8, isTraining ? GREY : hatched(at < 2 ? GREY : VERMILION));
    if (width > 7 * words.length) label(words, left + 3, y + 13);
    const tip = () => `receiver of direction ${direction.number} ${words}: ` +
      `${stepName(step)}, ${durationName(until - step)}`;
    hit(left, y + 4, width, 10, { tip, step });
  });
  const name = `direction ${direction.number} sends`;
  drawSpans(direction.back, y + 14, 4, { colour: VERMILION, tip: `${name} Clears, packets again` });
  drawSpans(direction.asks, y + 15, 2, { colour: ORANGE, tip: `${name} Starts` });
  for (const mark of run.marks) if (mark.direction === direction.number) drawMark(mark, y);
}

function label(words, x, y) {
  box(x, y - 10, pen.measureText(words).width + 4, 12, theme.back);
  write(words, x + 2, y);
}

function isAbort({ words }) {
  return words.startsWith("aborted") || words === "unlocked";
}

function drawMark(mark, y) {
  const x = xOf(mark.step);
  if (x < LABELS - 4 || x > seen.width) return;
  triangle(x, y + 1, isAbort(mark) || mark.words === "passed" ? theme.hot : theme.mark);
  const tip = () => `${mark.words}: direction ${mark.direction}, ${stepName(mark.step)}`;
  hit(x - 5, y, 10, 13, { tip, step: mark.step });
}

function drawFlits(direction, y, height) {
  const from = Math.max(0, after(direction.steps, seen.from) - 40);
  const to = after(direction.steps, stepAt(seen.width));
  if (to - from > (seen.width - LABELS) / 2.5) {
    drawManyFlits(direction, y, height);
    return;
  }
  for (let at = from; at < to; at += 1) drawFlit(direction.flits[at], y, height);
}

// A line from where a flit is sent, above, to where it lands, below.
function drawFlit(flit, y, height) {
  const { step, what, packet, landed, outcome, changed } = run.flits;
  const [top, bottom] = [y + 6, y + height - 7];
  const left = xOf(step[flit]);
  const right = landed[flit] ? xOf(landed[flit]) : seen.width;
  if (right < LABELS) return;
  const colour = WHAT_COLOURS[what[flit]];
  const isChosen = packet[flit] >= 0 && packet[flit] === seen.chosen?.request?.number;
  stroke([[Math.max(left, LABELS), top], [right, bottom]], colour, isChosen ? 4 : 2);
  box(left - 2, top - 2, 4, 4, colour);
  const word = run.outcomes[outcome[flit]];
  if (changed.has(flit) || word.startsWith("aborted")) cross(right, bottom, theme.hot);
  else if (["accepted", "poisoned", "repeat"].includes(word)) {
    box(right - 3, bottom - 3, 6, 6, word === "repeat" ? theme.dim : colour);
  }
  if (seen.chosen?.flit === flit) {
    pen.strokeStyle = theme.chosen;
    pen.strokeRect(left - 5, top - 5, 10, 10);
  }
  hit(left - 3, y, Math.max(6, (right - left) / 4), height, { flit });
}

// Flits by what they are, where many fall on a pixel.
function drawManyFlits(direction, y, height) {
  const most = Math.max(1, (seen.perPixel * 2) / run.round_steps);
  let at = after(direction.steps, seen.from);
  for (let x = LABELS; x < seen.width; x += 2) {
    const end = after(direction.steps, stepAt(x + 2));
    const counts = new Map();
    for (; at < end; at += 1) {
      const colour = WHAT_COLOURS[run.flits.what[direction.flits[at]]];
      counts.set(colour, (counts.get(colour) || 0) + 1);
    }
    let top = y + height - 2;
    for (const [colour, count] of counts) {
      const size = Math.min(height - 4, Math.max(1, ((height - 6) * count) / most));
      box(x, top - size, 2, size, colour);
      top -= size;
    }
  }
  const tip = () => `flits of direction ${direction.number} by kind; zoom in to see each`;
  hit(LABELS, y, seen.width - LABELS, height, { tip });
}

// The most that a queue held in changes from one place to another.
function mostHeld(queue, from, to) {
  let most = 0;
  for (let at = from; at < to;) {
    const isWhole = at % BLOCK === 0 && at + BLOCK <= to;
    most = Math.max(most, isWhole ? queue.maxima[at / BLOCK] : queue.held[at]);
    at += isWhole ? BLOCK : 1;
  }
  return most;
}

function drawQueue(queue, y, height) {
  const top = Math.max(queue.size || queue.most, 1);
  const [base, scale] = [y + height - 2, (height - 6) / top];
  stroke([[LABELS, base - top * scale + 0.5], [seen.width, base - top * scale + 0.5]], theme.line);
  const end = Math.min(seen.width, xOf(run.steps + 1));
  let from = after(queue.steps, seen.from);
  for (let x = LABELS; x < end; x += 1) {
    const to = after(queue.steps, stepAt(x + 1));
    const before = from ? queue.held[from - 1] : 0;
    const held = to > from ? mostHeld(queue, from, to) : before;
    const isFull = queue.size && held >= queue.size;
    if (held) paint(x, base - held * scale, 1, held * scale, isFull ? theme.hot : colourOf(queue));
    from = to;
  }
  endPaint();
  writeBefore(top.toLocaleString(), LABELS - 6, y + 10, theme.dim);
  hit(LABELS, y, seen.width - LABELS, height, { queue });
}

function colourOf(queue) {
  return QUEUE_COLOURS[queue.kind];
}

function drawTokens(direction, y, height) {
  const end = Math.min(seen.width, xOf(run.steps + 1));
  let x = LABELS;
  let at = after(direction.tokenSteps, stepAt(x + 2)) - 1;
  while (x < end) {
    const next = direction.tokenSteps[at + 1];
    const until = next === undefined ? end : Math.min(end, xOf(next));
    const right = Math.max(x + 2, until);
    drawTokenRow(tokensOf(direction, at), direction, [x, y, right - x, height]);
    x = right;
    at = after(direction.tokenSteps, stepAt(x + 1)) - 1;
  }
  writeBefore(direction.tokens.toLocaleString(), LABELS - 6, y + 10, theme.dim);
  hit(LABELS, y, seen.width - LABELS, height, { tokens: direction });
}

// Where tokens are after a change; before the first one all are due.
function tokensOf(direction, at) {
  return at < 0 ? [0, 0, 0, direction.tokens, 0] : direction.tokenRows[at];
}

function drawTokenRow(row, direction, [x, y, width, height]) {
  const scale = (height - 6) / direction.tokens;
  let top = y + 4;
  for (let place = 0; place < PLACES; place += 1) {
    if (row[place]) box(x, top, width, row[place] * scale, TOKEN_COLOURS[place]);
    top += row[place] * scale;
  }
}

function heldAt(queue, step) {
  const at = after(queue.steps, step) - 1;
  return at < 0 ? 0 : queue.held[at];
}
