"use strict";
// The data of the page: columns of numbers, and what they are of.

const KINDS = { I: Uint32Array, i: Int32Array, H: Uint16Array, h: Int16Array, B: Uint8Array };
const [OUTPUT, LINE, BUFFER, VAULT, BANK, REGISTERS, ANSWERS, TAKEN] = [0, 1, 2, 3, 4, 5, 6, 7];
const [SILENT] = [10];
// The most of a queue is known for each so many changes, so that a wide view need not see all.
const BLOCK = 64;
const PLACES = 5;
// What is read of the report.
const run = {};

// The first place of sorted numbers whose value is more than this one.
function after(numbers, value, end = numbers.length) {
  let low = 0;
  let high = end;
  while (low < high) {
    const middle = (low + high) >> 1;
    if (numbers[middle] <= value) low = middle + 1;
    else high = middle;
  }
  return low;
}

async function unpacked(text) {
  const packed = Uint8Array.from(atob(text.trim()), (sign) => sign.charCodeAt(0));
  const stream = new Blob([packed]).stream().pipeThrough(new DecompressionStream("deflate"));
  return new Uint8Array(await new Response(stream).arrayBuffer());
}

// The head is behind the columns, and its length behind it.
function readRun(bytes) {
  const end = bytes.length - 4;
  const size = new DataView(bytes.buffer).getUint32(end, true);
  const words = new TextDecoder();
  Object.assign(run, JSON.parse(words.decode(bytes.subarray(end - size, end))));
  const column = {};
  for (const [name, [kind, place, length]] of Object.entries(run.columns)) {
    column[name] = new KINDS[kind](bytes.buffer, place, length);
  }
  const rows = (name) => words.decode(column[name]).split("\n").slice(0, -1);
  readFlits(column, rows("changed"));
  readRequests(column, rows("requests"), rows("answers"));
  readQueues(column);
  readDirections(column);
  readWaits(column);
  run.marks = rows("marks").map(markOf);
}

function markOf(row) {
  const [step, direction, ...words] = row.split(" ");
  return { step: +step, direction: +direction, words: words.join(" ") };
}

function readFlits(column, changed) {
  const count = column.sent_step.length;
  const landed = new Uint32Array(count);
  const outcome = new Uint8Array(count);
  column.landed_flit.forEach((flit, at) => {
    landed[flit] = column.landed_step[at];
    outcome[flit] = column.landed_outcome[at];
  });
  run.flits = {
    step: column.sent_step, direction: column.sent_direction, what: column.sent_what,
    packet: column.sent_packet, isFirst: column.sent_first, bytes: column.sent_bytes,
    landed, outcome,
    changed: new Map(changed.map((row) => row.split(" ")).map(([flit, as]) => [+flit, as])),
  };
}

// Requests, each with its visits: a range of `run.visits`, which are sorted by packets.
function readRequests(column, requests, answers) {
  const packets = column.visit_packet;
  const starts = new Uint32Array(requests.length + 1);
  for (const packet of packets) starts[packet + 1] += 1;
  for (let at = 0; at < requests.length; at += 1) starts[at + 1] += starts[at];
  const next = starts.slice();
  const step = new Uint32Array(packets.length);
  const station = new Uint8Array(packets.length);
  const place = new Int16Array(packets.length);
  packets.forEach((packet, at) => {
    const to = next[packet];
    next[packet] += 1;
    step[to] = column.visit_step[at];
    station[to] = column.visit_station[at];
    place[to] = column.visit_place[at];
  });
  run.visits = { step, station, place };
  run.requests = requests.map((row, number) => requestOf(row, number, starts));
  for (const row of answers) {
    const [packet, ...words] = row.split(" ");
    run.requests[packet].answer = words.join(" ");
  }
}

function requestOf(row, number, starts) {
  const [host, tag, ...words] = row.split(" ");
  const [from, to] = [starts[number], starts[number + 1]];
  const { step, station } = run.visits;
  const isOpen = station[to - 1] < TAKEN;
  const request = {
    number, host: +host, tag, words: words.join(" "), from, to, isOpen,
    first: step[from], last: isOpen ? run.steps + 1 : step[to - 1], end: station[to - 1],
  };
  const stays = {};
  for (let at = from; at < to; at += 1) {
    if (station[at] >= TAKEN) continue;
    stays[station[at]] = (stays[station[at]] || 0) + leaves(request, at) - step[at];
  }
  // The station where it was longest.
  request.longest = +Object.keys(stays).reduce((a, b) => (stays[b] > stays[a] ? b : a), OUTPUT);
  return request;
}

// The step at which a request left the station of a visit.
function leaves(request, visit) {
  return visit + 1 < request.to ? run.visits.step[visit + 1] : request.last;
}

function queueName([word, ...numbers]) {
  if (word === "output" || word === "buffer") return `${word} of ${numbers[0]}`;
  const parts = ["cube", "vault", "bank"];
  const where = numbers.map((number, at) => `${parts[at]} ${number}`).join(" ");
  if (numbers[1] === "r") return `cube ${numbers[0]} answers of registers`;
  return word === "bank" ? where : `${where} ${word === "vault" ? "queue" : word}`;
}

function readQueues(column) {
  const counts = new Uint32Array(run.queues.length);
  for (const queue of column.level_queue) counts[queue] += 1;
  run.queues = run.queues.map((queue, number) => ({
    number, kind: queue[0], numbers: queue.slice(1), name: queueName(queue),
    size: run.sizes[number], steps: new Uint32Array(counts[number]),
    held: new Uint16Array(counts[number]), most: 0, full: 0, fullFrom: 0, maxima: [],
  }));
  const filled = new Uint32Array(counts.length);
  column.level_queue.forEach((number, at) => {
    const queue = run.queues[number];
    queue.steps[filled[number]] = column.level_step[at];
    queue.held[filled[number]] = column.level_held[at];
    filled[number] += 1;
  });
  run.queues.forEach(measureQueue);
}

function measureQueue(queue) {
  queue.held.forEach((held, at) => {
    queue.most = Math.max(queue.most, held);
    queue.maxima[at / BLOCK | 0] = Math.max(queue.maxima[at / BLOCK | 0] || 0, held);
    if (!queue.size || held < queue.size) return;
    const until = at + 1 < queue.steps.length ? queue.steps[at + 1] : run.steps + 1;
    queue.full += until - queue.steps[at];
    queue.fullFrom = queue.fullFrom || queue.steps[at];
  });
}

// The directions, each with its flits, what its receiver waits for, and where tokens are.
function readDirections(column) {
  const rows = run.directions.map(() => []);
  run.flits.direction.forEach((direction, flit) => rows[direction].push(flit));
  const queueOf = (kind, end) =>
    run.queues.find((queue) => queue.kind === kind && queue.numbers[0] === end);
  run.directions.forEach((direction, number) => {
    const flits = rows[number].sort((a, b) => run.flits.step[a] - run.flits.step[b]);
    Object.assign(direction, {
      number, flits: Uint32Array.from(flits), modes: [{ step: 1, mode: 0 }],
      output: queueOf("output", direction.from), buffer: queueOf("buffer", direction.to),
      tokenSteps: [], tokenRows: [],
    });
    direction.steps = direction.flits.map((flit) => run.flits.step[flit]);
    direction.back = spansOf(direction, ["clear", "again"]);
    direction.asks = spansOf(direction, ["start"]);
  });
  column.mode_step.forEach((step, at) => {
    run.directions[column.mode_direction[at]].modes.push({ step, mode: column.mode[at] });
  });
  column.token_step.forEach((step, at) => {
    const direction = run.directions[column.token_direction[at]];
    direction.tokenSteps.push(step);
    direction.tokenRows.push(column.token_places.subarray(PLACES * at, PLACES * (at + 1)));
  });
}

// The first and last steps of flits of these kinds that follow one another.
function spansOf(direction, kinds) {
  const numbers = kinds.map((kind) => run.whats.indexOf(kind));
  const spans = { first: [], last: [] };
  for (const flit of direction.flits) {
    if (!numbers.includes(run.flits.what[flit])) continue;
    const step = run.flits.step[flit];
    const at = spans.last.length - 1;
    if (at >= 0 && step - spans.last[at] <= 4 * run.round_steps) spans.last[at] = step;
    else {
      spans.first.push(step);
      spans.last.push(step);
    }
  }
  return spans;
}

function readWaits(column) {
  run.waits = run.waits.map(([step, cause]) => ({ step, cause, first: [], last: [] }));
  column.wait_name.forEach((name, at) => {
    run.waits[name].first.push(column.wait_first[at]);
    run.waits[name].last.push(column.wait_last[at]);
  });
}

// How many steps of spans are in a range; the end of the range is not in it.
function overlap(spans, from, to) {
  let steps = 0;
  for (let at = Math.max(0, after(spans.first, from) - 1); at < spans.first.length; at += 1) {
    if (spans.first[at] >= to) break;
    steps += Math.max(0, Math.min(to, spans.last[at] + 1) - Math.max(from, spans.first[at]));
  }
  return steps;
}

// The steps of a range in which a receiver waits for the end of a retry.
function stepsInAbort(direction, from, to) {
  let steps = 0;
  direction.modes.forEach(({ step, mode }, at) => {
    if (run.modes[mode] !== "abort") return;
    const until = at + 1 < direction.modes.length ? direction.modes[at + 1].step : run.steps + 1;
    steps += Math.max(0, Math.min(to, until) - Math.max(from, step));
  });
  return steps;
}

function spanTotal(spans) {
  return spans.first.reduce((sum, first, at) => sum + spans.last[at] - first + 1, 0);
}

// The number of the round that a step is in; 0 where it is in none.
function roundOf(step) {
  let number = 0;
  for (const [first, rounds, before] of run.segments) {
    if (first > step) break;
    const at = Math.floor((step - first) / run.round_steps);
    number = at < rounds ? before + at + 1 : 0;
  }
  return number;
}

function stepName(step) {
  const round = roundOf(step);
  const name = `step ${step.toLocaleString()}`;
  return round ? `${name} (round ${round.toLocaleString()})` : name;
}

function durationName(steps) {
  const name = `${steps.toLocaleString()} steps`;
  const rounds = steps / run.round_steps;
  return rounds < 1 ? name : `${name}, ${rounds.toFixed(rounds < 10 ? 1 : 0)} rounds`;
}

function requestName(request) {
  const tag = request.tag === "-" ? "no tag" : `tag ${request.tag}`;
  const words = request.words.split(" ");
  return `h${request.host} ${tag}: ${words.slice(0, words[0] === "poison" ? 4 : 3).join(" ")}`;
}
