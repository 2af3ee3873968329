// What a person does: keys, the pointer, and the search.

let jumps = [];
let slowAt = -1;
let found = { words: "", at: -1 };

// Where keys go: aborts, ways back, what is blocked for a round or longer, and marked lines.
function listJumps() {
  jumps = run.marks.filter(isAbort).map(({ step, direction, words }) =>
    ({ key: "n", step, until: step, direction, words: `${words}, direction ${direction}` }));
  for (const { number, back } of run.directions) {
    back.first.slice(1).forEach((step, at) => {
      const words = `direction ${number} goes back`;
      jumps.push({ key: "r", step, until: back.last[at + 1], direction: number, words });
    });
  }
  for (const wait of run.waits) {
    wait.first.forEach((step, at) => {
      const until = wait.last[at];
      const words = `${wait.step}: ${wait.cause}`;
      if (until - step > run.round_steps) jumps.push({ key: "w", step, until, words });
    });
  }
  for (const step of run.seen) jumps.push({ key: "m", step, until: step, words: "marked line" });
  jumps.sort((a, b) => a.step - b.step);
}

function ask() {
  if (isAsked) return;
  isAsked = true;
  requestAnimationFrame(() => {
    isAsked = false;
    draw();
  });
}

function draw() {
  keepInside(lanesHeight);
  const ratio = devicePixelRatio || 1;
  pen.setTransform(ratio, 0, 0, ratio, 0, 0);
  pen.font = "11px system-ui, sans-serif";
  box(0, 0, seen.width, seen.height, theme.back);
  hits = [];
  let y = AXIS - seen.top;
  for (const lane of lanes) {
    if (y + lane.height > AXIS && y < seen.height) drawLane(lane, y);
    y += lane.height + GAP;
  }
  drawAxis(jumps);
  const x = xOf(seen.cursor);
  if (x >= LABELS) stroke([[x + 0.5, 0], [x + 0.5, seen.height]], theme.mark);
  lightNetwork();
}

function drawLane(lane, y) {
  if (lane.isHead) stroke([[0, y + 0.5], [seen.width, y + 0.5]], theme.line);
  else box(LABELS, y, seen.width - LABELS, lane.height, theme.lane);
  pen.save();
  pen.beginPath();
  pen.rect(LABELS - 50, y, seen.width - LABELS + 50, lane.height + 1);
  pen.clip();
  lane.draw(y, lane.height);
  pen.restore();
  if (lane.label) {
    pen.font = "600 12px system-ui, sans-serif";
    write(lane.label, 8, y + 13);
    pen.font = "11px system-ui, sans-serif";
  }
  if (lane.words) write(lane.words, lane.label ? 90 : 18, y + 13, theme.dim);
}

function measure() {
  const canvas = $("canvas");
  const ratio = devicePixelRatio || 1;
  seen.width = canvas.clientWidth;
  seen.height = canvas.clientHeight;
  canvas.width = seen.width * ratio;
  canvas.height = seen.height * ratio;
}

// A canvas of another size is empty, so it is drawn at once, and not with the next frame.
function resize() {
  measure();
  draw();
}

// Puts the cursor to a step; with a span, shows that too.
function goTo(step, span = 0) {
  seen.cursor = step;
  if (span) {
    seen.perPixel = (span * 1.25) / (seen.width - LABELS);
    seen.from = step - span * 0.1;
  } else if (step < seen.from || step > seen.from + spanSeen()) {
    seen.from = step - spanSeen() * 0.3;
  }
  $("side").scrollTop = 0;
  ask();
}

// Scrolls until a lane is seen.
function scrollTo(isIt) {
  let y = 0;
  for (const lane of lanes) {
    if (isIt(lane)) {
      if (y < seen.top || y > seen.top + seen.height - AXIS - 120) seen.top = Math.max(0, y - 80);
      return;
    }
    y += lane.height + GAP;
  }
}

function choose(chosen, isZoomed) {
  seen.chosen = chosen;
  const { request, flit } = chosen || {};
  if (request && isZoomed) goTo(request.first, request.last - request.first);
  else if (request) seen.cursor = request.first;
  else if (flit !== undefined) goTo(run.flits.step[flit]);
  if (request) scrollTo((lane) => lane.row?.requests.includes(request));
  showPanel();
  ask();
}

function jump(key, isForward) {
  const list = jumps.filter((it) => it.key === key);
  const next = isForward ? list.find(({ step }) => step > seen.cursor)
    : list.filter(({ step }) => step < seen.cursor).at(-1);
  if (!next) {
    $("found").textContent = list.length ? "no more of them" : "there is none";
    return;
  }
  $("found").textContent = `${list.indexOf(next) + 1} of ${list.length}: ${next.words}`;
  if (next.direction !== undefined) scrollTo((lane) => lane.direction === next.direction);
  goTo(next.step, spanSeen() > 40 * run.round_steps ? 20 * run.round_steps : 0);
}

function chooseSlow() {
  const list = slowest();
  if (!list.length) return;
  slowAt = (slowAt + 1) % list.length;
  choose({ request: list[slowAt] }, true);
}

function isFound(request, word) {
  const words = request.words.split(" ");
  const front = words[0] === "poison" ? 1 : 0;
  if (/^h\d$/.test(word)) return request.host === +word[1];
  if (/^t\d+$/.test(word)) return request.tag === word.slice(1);
  if (/^c\d$/.test(word)) return words[front + 1] === word[1];
  if (word.startsWith("0x")) return words[front + 2] === word;
  return words.slice(0, front + 1).includes(word);
}

function find(isForward) {
  const words = $("find").value.trim().toLowerCase();
  if (!words) return;
  const parts = words.split(/\s+/);
  const list = run.requests.filter((request) => parts.every((word) => isFound(request, word)));
  if (words !== found.words) found = { words, at: isForward ? -1 : 0 };
  if (!list.length) {
    $("found").textContent = "no request is so";
    return;
  }
  found.at = (found.at + (isForward ? 1 : -1) + list.length) % list.length;
  $("found").textContent = `${found.at + 1} of ${list.length}`;
  choose({ request: list[found.at] }, true);
}

function zoom(factor, x = LABELS + (seen.width - LABELS) / 2) {
  const step = stepAt(x);
  seen.perPixel *= factor;
  keepInside(lanesHeight);
  seen.from = step - (x - LABELS) * seen.perPixel;
  ask();
}

function showAll() {
  seen.from = 0;
  seen.perPixel = (run.steps + 20) / Math.max(1, seen.width - LABELS);
  ask();
}

function move(share, rows) {
  seen.from += share * spanSeen();
  seen.top += rows;
  ask();
}

function turnTheme() {
  document.documentElement.classList.toggle("dark");
  readTheme();
  ask();
}

const KEYS = {
  n: () => jump("n", true), p: () => jump("n", false),
  r: () => jump("r", true), R: () => jump("r", false),
  w: () => jump("w", true), W: () => jump("w", false),
  m: () => jump("m", true), M: () => jump("m", false),
  s: chooseSlow, d: turnTheme, 0: showAll, "/": () => $("find").focus(),
  "+": () => zoom(0.6), "=": () => zoom(0.6), "-": () => zoom(1 / 0.6),
  ArrowLeft: () => move(-0.2, 0), ArrowRight: () => move(0.2, 0),
  ArrowUp: () => move(0, -60), ArrowDown: () => move(0, 60),
  Escape: () => choose(null, false),
};

function press(key) {
  if (KEYS[key]) KEYS[key]();
}

function onKey(event) {
  if (event.target.id === "find") {
    if (event.key === "Enter") find(!event.shiftKey);
    if (event.key === "Escape") event.target.blur();
  } else if (!event.ctrlKey && !event.metaKey && !event.altKey) {
    if (KEYS[event.key] && event.target.type !== "checkbox") event.preventDefault();
    press(event.key);
  }
}

function onWheel(event) {
  event.preventDefault();
  const { deltaX, deltaY } = event;
  if (event.shiftKey || Math.abs(deltaX) > Math.abs(deltaY)) {
    seen.from += (deltaX || deltaY) * seen.perPixel;
  } else if (event.offsetX < LABELS || event.altKey) seen.top += deltaY;
  else zoom(deltaY < 0 ? 0.8 : 1.25, event.offsetX);
  ask();
}

function tipOf(what) {
  if (!what) return "";
  if (what.tip) return escaped(what.tip());
  if (what.row) {
    const request = requestAt(what.row, seen.pointed);
    if (!request) return "";
    const state = request.isOpen ? ", not ended" : "";
    const steps = durationName(request.last - request.first);
    return `${escaped(requestName(request))}<br>${steps}${state}`;
  }
  if (what.queue) return `${what.queue.name}: ${heldAt(what.queue, seen.pointed)}`;
  if (what.tokens) return tokensTip(what.tokens);
  const kind = run.whats[run.flits.what[what.flit]];
  return `${kind}: ${run.outcomes[run.flits.outcome[what.flit]] || "on the line"}`;
}

function tokensTip(direction) {
  const at = after(direction.tokenSteps, seen.pointed) - 1;
  const row = tokensOf(direction, at);
  return TOKEN_NAMES.map((name, place) => `${name}: ${row[place]}`).join("<br>");
}

function showTip(event) {
  seen.pointed = Math.max(1, Math.round(stepAt(event.offsetX)));
  const tip = $("tip");
  const words = tipOf(hitAt(event.offsetX, event.offsetY));
  tip.innerHTML = `${words}${words ? "<br>" : ""}${stepName(seen.pointed)}`;
  tip.style.display = event.offsetX > LABELS ? "block" : "none";
  tip.style.left = `${Math.min(event.clientX + 12, innerWidth - 430)}px`;
  tip.style.top = `${event.clientY + 14}px`;
}

function onClick(x, y) {
  const what = hitAt(x, y);
  seen.cursor = Math.max(1, Math.round(stepAt(x)));
  const request = what?.row && requestAt(what.row, seen.cursor);
  if (request) choose({ request }, false);
  else if (what?.flit !== undefined) choose({ flit: what.flit }, false);
  else if (what?.step) seen.cursor = what.step;
  ask();
}

function listenToPointer(canvas) {
  let drag = null;
  canvas.addEventListener("wheel", onWheel, { passive: false });
  canvas.addEventListener("pointerdown", (event) => {
    drag = { x: event.offsetX, y: event.offsetY, from: seen.from, top: seen.top, isFar: false };
    canvas.setPointerCapture(event.pointerId);
  });
  canvas.addEventListener("pointerup", (event) => {
    if (drag && !drag.isFar) onClick(event.offsetX, event.offsetY);
    drag = null;
  });
  canvas.addEventListener("pointermove", (event) => {
    if (!drag) {
      showTip(event);
      return;
    }
    const [dx, dy] = [event.offsetX - drag.x, event.offsetY - drag.y];
    drag.isFar = drag.isFar || Math.abs(dx) + Math.abs(dy) > 4;
    if (!drag.isFar) return;
    seen.from = drag.from - dx * seen.perPixel;
    seen.top = drag.top - dy;
    ask();
  });
  canvas.addEventListener("pointerleave", () => { $("tip").style.display = "none"; });
}

function onSide(event) {
  const line = event.target.closest("tr.go");
  const button = event.target.closest("button[data-key]");
  if (button) press(button.dataset.key);
  if (!line) return;
  const { request, step } = line.dataset;
  if (request) choose({ request: run.requests[+request] }, true);
  else goTo(+step, spanSeen() > 40 * run.round_steps ? 20 * run.round_steps : 0);
}

function listen() {
  new ResizeObserver(resize).observe($("lanes"));
  addEventListener("keydown", onKey);
  for (const button of document.querySelectorAll("header button[data-key]")) {
    button.addEventListener("click", () => press(button.dataset.key));
  }
  for (const mark of document.querySelectorAll("[data-group]")) {
    mark.addEventListener("change", () => { buildLanes(); ask(); });
  }
  $("side").addEventListener("click", onSide);
  listenToPointer($("canvas"));
}

// What the address of the page asks for, as #theme=dark&request=0&from=1&to=900&keys=n.
function obey(wishes) {
  const isDark = matchMedia("(prefers-color-scheme: dark)").matches;
  const theme = wishes.get("theme") || (isDark ? "dark" : "light");
  document.documentElement.classList.toggle("dark", theme === "dark");
  readTheme();
  showAll();
  if (wishes.has("request")) {
    choose({ request: run.requests[+wishes.get("request")] }, !wishes.has("from"));
  }
  if (wishes.has("from")) {
    seen.from = +wishes.get("from");
    seen.perPixel = (+wishes.get("to") - seen.from) / (seen.width - LABELS);
  }
  if (wishes.has("top")) seen.top = +wishes.get("top");
  for (const key of wishes.get("keys") || "") press(key);
}

async function start() {
  try {
    readRun(await unpacked($("data").textContent));
    $("data").textContent = "";
    pen = $("canvas").getContext("2d");
    listJumps();
    buildLanes();
    makeNetwork();
    $("marked").hidden = !run.seen.length;
    const many = counted(run.requests.length, "request");
    $("about").textContent = `${run.steps.toLocaleString()} steps, ${many}`;
    measure();
    obey(new URLSearchParams(location.hash.slice(1)));
    if (!seen.chosen) showPanel();
    draw();
    listen();
    window.ready = 1;
  } catch (error) {
    $("info").textContent = `this page cannot be shown: ${error.stack}`;
  }
}

start();
