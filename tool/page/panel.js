// The side panel: a summary of the run, a request, or a flit.

const MOST_SHOWN = 10;
const MOST_LINES = 60;

function escaped(words) {
  return String(words).replace(/[&<>"]/g, (sign) => `&#${sign.charCodeAt(0)};`);
}

function row(goes, cells) {
  const shown = cells.map((cell, at) => `<td${at ? " class=number" : ""}>${cell}</td>`).join("");
  return `<tr class=go ${goes}>${shown}</tr>`;
}

function table(title, heads, rows, none = "none") {
  const cells = heads.map((head, at) => `<th${at ? " class=number" : ""}>${head}</th>`).join("");
  const inside = rows.length ? rows.join("") : `<tr><td class=dim>${none}</td></tr>`;
  return `<h2>${title}</h2><table><tr>${cells}</tr>${inside}</table>`;
}

function slowest() {
  return [...run.requests].sort((a, b) => b.last - b.first - (a.last - a.first));
}

function summary() {
  const open = run.requests.filter((request) => request.isOpen).length;
  const many = counted(run.requests.length, "request");
  const still = run.still ? `<p class=hot>${escaped(run.still)}</p>` : "";
  const left = open ? `${open.toLocaleString()} not ended` : "all ended";
  const end = `<p>${many}, ${left}. ` +
    `The run ends ${escaped(run.end)}.</p>`;
  return still + end + slowRows() + abortRows() + retryRows() + fullRows() + waitRows() + legend();
}

function slowRows() {
  const rows = slowest().slice(0, MOST_SHOWN).map((request) => {
    const name = escaped(requestName(request)) + (request.isOpen ? " <b>not ended</b>" : "");
    const steps = (request.last - request.first).toLocaleString();
    return row(`data-request=${request.number}`, [name, request.first.toLocaleString(), steps]);
  });
  return table("Slowest requests", ["request", "from", "steps"], rows);
}

function abortRows() {
  const aborts = run.marks.filter(isAbort);
  const rows = aborts.slice(0, MOST_SHOWN).map((mark) => {
    const { from, to } = run.directions[mark.direction];
    const name = `${escaped(mark.words)}, direction ${mark.direction} (${from} → ${to})`;
    return row(`data-step=${mark.step}`, [name, `${mark.step} (${roundOf(mark.step)})`]);
  });
  const changed = run.flits.changed.size;
  const title = `Aborts: ${aborts.length}; flits that landed changed: ${changed}`;
  return table(title, ["", "step (round)"], rows);
}

// Ways back after the first one, which each direction takes when it starts up.
function retryRows() {
  const rows = [];
  for (const { number, from, to, back } of run.directions) {
    for (let at = 1; at < back.first.length && rows.length < MOST_SHOWN; at += 1) {
      const [first, last] = [back.first[at], back.last[at]];
      const name = `direction ${number} (${from} → ${to})`;
      const cells = [name, `${first} (${roundOf(first)})`, last - first + 1];
      rows.push(row(`data-step=${first}`, cells));
    }
  }
  return table("Links that went back", ["", "step (round)", "steps"], rows);
}

function fullRows() {
  const full = run.queues.filter((queue) => queue.full).sort((a, b) => b.full - a.full);
  const rows = full.slice(0, MOST_SHOWN).map((queue) => {
    const share = ((100 * queue.full) / run.steps).toFixed(1);
    const cells = [`${queue.name} (${queue.size})`, queue.full.toLocaleString(), share];
    return row(`data-step=${queue.fullFrom}`, cells);
  });
  return table("Queues that were full", ["queue (size)", "steps", "%"], rows);
}

function waitRows() {
  const waits = run.waits.map((wait) => [spanTotal(wait), wait]).sort(([a], [b]) => b - a);
  const rows = waits.slice(0, MOST_SHOWN).map(([steps, wait]) =>
    row(`data-step=${wait.first[0]}`, [`${wait.step}: ${wait.cause}`, steps.toLocaleString()]));
  return table("What was blocked longest", ["step: cause", "steps"], rows);
}

function swatch(colour, letter) {
  return `<span class=swatch style="background:${colour}">${letter}</span>`;
}

function legend() {
  const names = [
    "in an output queue", "on a line, hatched where its receiver is in Abort", "in a buffer",
    "in a vault's queue", "in a bank", "with the registers", "among the answers",
  ];
  const stations = names.map((name, at) =>
    `${swatch(STATION_COLOURS[at], STATION_LETTERS[at])}${name}`);
  const kinds = [["new", 6], ["again", 7], ["Start, Clear", 2], ["TRET", 5]];
  const flits = kinds.map(([name, what]) => `${swatch(WHAT_COLOURS[what], "")}${name}`);
  const tokens = TOKEN_NAMES.map((name, at) => `${swatch(TOKEN_COLOURS[at], "")}${name}`);
  return `<h2>Legend</h2><h3>requests</h3>${stations.join("<br>")}` +
    `<h3>flits, from above to below</h3>${flits.join(" ")}` +
    "<br>✕ changed or aborted; ■ accepted" +
    `<h3>tokens</h3>${tokens.join("<br>")}<h3>keys</h3>` +
    "<p>n p aborts, r R retries, w W what is blocked, s slowest, m marked lines, + - 0 zoom, " +
    "arrows move, d light or dark, Escape closes. The wheel zooms; over the names it scrolls.</p>";
}

// How long a request was at each station, and what it waited for there.
function requestPanel(request) {
  const state = request.isOpen ? "not ended" : run.stations[request.end];
  const rows = visitRows(request);
  const changed = flitsOf(request).filter((flit) => run.flits.changed.has(flit)).length;
  const isAgain = (flit) => run.whats[run.flits.what[flit]] === "again";
  const again = flitsOf(request).filter(isAgain).length;
  const retries = again || changed
    ? `<p class=hot>${again} of its flits were sent again; ${changed} landed changed.</p>` : "";
  return `<h2>${escaped(requestName(request))}</h2>` +
    `<p>${stepName(request.first)}: ${durationName(request.last - request.first)}, ${state}</p>` +
    retries + table("Stations", ["where, and what it waited for", "from", "steps"], rows) +
    fieldsOfRequest(request) + linesOfRequest(request);
}

function visitRows(request) {
  const rows = [];
  const { step, station, place } = run.visits;
  for (let at = request.from; at < request.to; at += 1) {
    if (station[at] >= TAKEN) continue;
    const until = leaves(request, at);
    const isLine = station[at] === LINE;
    const name = isLine ? lineName(place[at]) : run.queues[place[at]].name;
    const why = waitsAt(station[at], place[at], step[at], until);
    const head = swatch(STATION_COLOURS[station[at]], STATION_LETTERS[station[at]]);
    const steps = (until - step[at]).toLocaleString();
    const cells = [`${head}${name}${why}`, step[at].toLocaleString(), steps];
    rows.push(row(`data-step=${step[at]}`, cells));
  }
  return rows;
}

function lineName(direction) {
  const { from, to } = run.directions[direction];
  return `line of direction ${direction} (${from} → ${to})`;
}

// What a request waited for at a station, as far as the report says it.
function waitsAt(station, place, from, until) {
  const causes = [];
  const add = (words, steps) => {
    if (steps) causes.push(`<br><span class=dim>${words}: ${durationName(steps)}</span>`);
  };
  if (station === LINE) {
    const steps = stepsInAbort(run.directions[place], from, until);
    add("the receiver started up, or waited for a retry", steps);
    return causes.join("");
  }
  const queue = run.queues[place];
  const ahead = heldAt(queue, from) - 1;
  if (ahead > 0) causes.push(`<br><span class=dim>behind ${ahead} others</span>`);
  for (const wait of run.waits.filter(({ step }) => stepsOut(queue).includes(step))) {
    add(`${wait.step}: ${wait.cause}`, overlap(wait, from, until));
  }
  if (station === OUTPUT) {
    const direction = run.directions.find(({ output }) => output === queue);
    add("the link started up, or waited for a retry", stepsInAbort(direction, from, until));
  }
  return causes.join("");
}

// The steps that take a packet out of a queue.
function stepsOut({ kind, numbers }) {
  if (kind === "output") {
    return [`send ${run.directions.find(({ from }) => from === numbers[0]).number}`];
  }
  if (kind === "buffer") {
    const [cube, port] = numbers[0].slice(1).split(".");
    return numbers[0][0] === "h" ? [`take ${cube}`] : [`shift ${cube} ${port}`];
  }
  const word = { vault: "spread", bank: "bank", registers: "registers", answers: "lift" }[kind];
  return [`${word} ${numbers.join(" ")}`];
}

function flitsOf(request) {
  const found = [];
  run.flits.packet.forEach((packet, flit) => {
    if (packet === request.number) found.push(flit);
  });
  return found;
}

function hexOf(flit) {
  const bytes = run.flits.bytes.subarray(16 * flit, 16 * flit + 16);
  return Array.from(bytes, (byte) => byte.toString(16).padStart(2, "0")).join("");
}

// A word of eight bytes, the lowest byte first.
function wordOf(hex) {
  return BigInt(`0x${hex.match(/../g).reverse().join("")}`);
}

function valuesOf(fields, word) {
  return fields.map(([name, high, low]) => {
    const value = (word >> BigInt(low)) & ((1n << BigInt(high - low + 1)) - 1n);
    const shown = name === "CMD" ? commandName(Number(value)) : "";
    return `${name} ${["ADRS", "CRC"].includes(name) ? `0x${value.toString(16)}` : value}${shown}`;
  }).join(", ");
}

function commandName(code) {
  const command = run.fields.commands[code];
  return ` (${command ? command[0] : "none"})`;
}

// The fields of a packet whose first and last flits have these digits.
function fieldsOf(first, last, profile) {
  const header = wordOf(first.slice(0, 16));
  const command = run.fields.commands[Number(header & 127n)];
  if (!command) return "its command is none";
  const kind = command[1] === "response" ? "response" : "request";
  const tail = wordOf(last.slice(16));
  return `header: ${valuesOf(run.fields[kind], header)}\n` +
    `tail: ${valuesOf(run.fields[`${kind}_tail`][profile], tail)}`;
}

function fieldsOfRequest(request) {
  const flits = flitsOf(request);
  if (!flits.length) return "";
  const direction = run.directions[run.flits.direction[flits[0]]];
  return `<h2>Its packet on direction ${direction.number}</h2>` +
    `<pre>${fieldsOf(hexOf(flits[0]), hexOf(lastFlit(flits[0])), direction.profile)}</pre>`;
}

// The flits of the packet that a flit is of, in their order on the line.
function packetOf(flit) {
  const { flits } = run.directions[run.flits.direction[flit]];
  let at = flits.indexOf(flit);
  while (at > 0 && !run.flits.isFirst[flits[at]]) at -= 1;
  const found = [flits[at]];
  for (at += 1; at < flits.length && !run.flits.isFirst[flits[at]]; at += 1) found.push(flits[at]);
  return found;
}

function lastFlit(flit) {
  return packetOf(flit).at(-1);
}

function flitPanel(flit) {
  const { step, what, packet, landed, outcome, changed, direction } = run.flits;
  const { from, to, profile } = run.directions[direction[flit]];
  const all = packetOf(flit);
  const end = landed[flit]
    ? `lands at ${stepName(landed[flit])}: ${run.outcomes[outcome[flit]]}` : "is still on the line";
  const request = run.requests[packet[flit]];
  const name = request ? [escaped(requestName(request))] : [];
  const owner = request ? `<table>${row(`data-request=${request.number}`, name)}</table>` : "";
  const as = changed.get(flit);
  const change = as ? `<p class=hot>landed as ${as}</p>` : "";
  return `<h2>${run.whats[what[flit]]}, direction ${direction[flit]} (${from} → ${to})</h2>` +
    `<p>flit ${all.indexOf(flit) + 1} of ${all.length}, sent at ${stepName(step[flit])}; ` +
    `${end}</p>${change}${owner}<pre>${hexOf(flit)}\n\n` +
    `${fieldsOf(hexOf(all[0]), hexOf(all.at(-1)), profile)}</pre>` +
    `<h2>Lines</h2><pre>${all.flatMap(linesOfFlit).map(lineWithStep).join("\n")}</pre>`;
}

// The lines of the report, as they are there.
function linesOfFlit(flit) {
  const { step, what, landed, outcome, changed, direction } = run.flits;
  const lines = [[step[flit], `sent ${direction[flit]} ${run.whats[what[flit]]} ${hexOf(flit)}`]];
  if (!landed[flit]) return lines;
  const word = run.outcomes[outcome[flit]];
  const as = `${direction[flit]} ${changed.get(flit) || hexOf(flit)}`;
  lines.push([landed[flit], word === "passed" ? `passed ${as}` : `landed ${as} ${word}`]);
  return lines;
}

function lineWithStep([step, line]) {
  return `${step}: ${line}`;
}

function linesOfRequest(request) {
  const lines = flitsOf(request).flatMap(linesOfFlit);
  const { step, station, place } = run.visits;
  for (let at = request.from; at < request.to; at += 1) {
    const before = at > request.from ? run.queues[place[at - 1]] : null;
    const line = visitLine(request, station[at], run.queues[place[at]], before);
    if (line) lines.push([step[at], line]);
  }
  lines.sort(([a], [b]) => a - b);
  const left = lines.length - MOST_LINES;
  const more = left > 0 ? `\n.. and ${left} more` : "";
  const shown = lines.slice(0, MOST_LINES).map(lineWithStep).join("\n");
  return `<h2>Its lines</h2><pre>${escaped(shown + more)}</pre>`;
}

// The line by which a request came to a station; that of a flit is another one.
function visitLine(request, station, queue, before) {
  const tag = request.tag;
  if (!before) return `gave ${request.host} ${tag} ${request.words}`;
  const end = before.numbers.join(" ");
  const port = (before.numbers[0] || "").slice(1).replace(".", " ");
  const asked = `${request.host} ${tag} ${request.words} ${request.answer}`;
  const word = run.stations[station];
  if (word === "taken") return `took ${request.host} ${tag} ${request.answer}`;
  if (word === "discarded") return `discarded ${request.host}`;
  if (word === "dropped") return `dropped ${port}`;
  if (word === "silent" || word === "answers") {
    return `executed ${before.kind === "registers" ? `${end} r` : end} ${asked}`;
  }
  if (word === "bank") return `spread ${queue.numbers.join(" ")}`;
  if (word === "vault") return `shifted ${port} v${queue.numbers[1]}`;
  if (word === "registers") return `shifted ${port} r`;
  if (word !== "output") return "";
  const goal = queue.numbers[0].split(".")[1];
  return before.kind === "answers" ? `lifted ${end} p${goal}` : `shifted ${port} p${goal}`;
}

function showPanel() {
  const { chosen } = seen;
  const close = "<p><button data-key=Escape>back to the summary <kbd>Esc</kbd></button></p>";
  if (chosen?.request) $("info").innerHTML = close + requestPanel(chosen.request);
  else if (chosen?.flit !== undefined) $("info").innerHTML = close + flitPanel(chosen.flit);
  else $("info").innerHTML = summary();
}
