// The network as a drawing, in which directions are lit by what happens at the cursor.

const SVG = "http://www.w3.org/2000/svg";
const NETWORK_WIDTH = 380;
const CUBES_A_ROW = 4;
const places = {};
let arrows = [];

function svg(name, attributes, words = "") {
  const node = document.createElementNS(SVG, name);
  for (const [key, value] of Object.entries(attributes)) node.setAttribute(key, value);
  node.textContent = words;
  return node;
}

// Cubes in a circle where they are a ring, else in rows that turn at their ends.
function placeCubes() {
  const middle = NETWORK_WIDTH / 2;
  if (run.ring.length) {
    const radius = run.ring.length > 5 ? 92 : 68;
    run.ring.forEach((cube, at) => {
      const angle = (2 * Math.PI * at) / run.ring.length - Math.PI / 2;
      places[`c${cube}`] = {
        x: middle + radius * Math.cos(angle), y: 150 + radius * Math.sin(angle), angle,
      };
    });
    return;
  }
  const wide = Math.min(run.cubes.length, CUBES_A_ROW);
  run.cubes.forEach((_, cube) => {
    const row = Math.floor(cube / wide);
    const column = row % 2 ? wide - 1 - (cube % wide) : cube % wide;
    const x = middle + (column - (wide - 1) / 2) * (wide < 3 ? 180 : 96);
    places[`c${cube}`] = { x, y: 110 + 100 * row, angle: row ? Math.PI / 2 : -Math.PI / 2 };
  });
}

// Hosts beside their cubes, on the outer side.
function placeHosts() {
  const hosts = {};
  for (const { from, to } of run.directions) {
    const cube = to.split(".")[0];
    if (from.startsWith("h")) (hosts[cube] = hosts[cube] || []).push(from);
  }
  for (const [cube, names] of Object.entries(hosts)) {
    const { x, y, angle } = places[cube];
    names.forEach((name, at) => {
      const turned = angle + 0.75 * (at - (names.length - 1) / 2);
      places[name] = { x: x + 72 * Math.cos(turned), y: y + 66 * Math.sin(turned), angle };
    });
  }
}

function makeNetwork() {
  placeCubes();
  placeHosts();
  const heights = Object.values(places).map(({ y }) => y);
  const top = Math.min(...heights) - 24;
  const height = Math.max(...heights) + 24 - top;
  const viewBox = `0 ${top} ${NETWORK_WIDTH} ${height}`;
  const picture = svg("svg", { width: NETWORK_WIDTH, height, viewBox });
  arrows = run.directions.map((direction) => arrowOf(direction, picture));
  for (const [name, { x, y }] of Object.entries(places)) {
    const shape = { x: x - 15, y: y - 10, width: 30, height: 20, rx: name[0] === "h" ? 10 : 3 };
    picture.append(svg("rect", { ...shape, fill: "var(--panel)", stroke: "var(--text)" }));
    picture.append(svg("text", { x, y: y + 4, "text-anchor": "middle" }, name));
  }
  $("network").replaceChildren(picture, svg("p", {}));
  const words = document.createElement("p");
  words.id = "now";
  words.className = "dim";
  $("network").append(words);
}

function arrowOf(direction, picture) {
  const from = places[direction.from.split(".")[0]];
  const to = places[direction.to.split(".")[0]];
  const length = Math.hypot(to.x - from.x, to.y - from.y) || 1;
  const [dx, dy] = [(to.x - from.x) / length, (to.y - from.y) / length];
  // Each direction on its own side of the link.
  const at = (share) => [
    from.x + dx * (18 + (length - 36) * share) - dy * 6,
    from.y + dy * (18 + (length - 36) * share) + dx * 6,
  ];
  const [[x1, y1], [x2, y2], [x, y]] = [at(0), at(1), at(0.3)];
  const line = svg("line", { x1, y1, x2, y2, "stroke-width": 3 });
  const head = svg("path", {
    d: `M${x2},${y2} l${-dx * 8 - dy * 4},${-dy * 8 + dx * 4} l${dy * 8},${-dx * 8} z`,
  });
  const number = svg("text", { x: x - dy * 8, y: y + dx * 8 + 4, "text-anchor": "middle" });
  number.textContent = direction.number;
  picture.append(line, head, number);
  return { line, head };
}

// The last flit that a direction sent, and what it did with it at the cursor.
function atCursor(direction) {
  const at = after(direction.steps, seen.cursor) - 1;
  const flit = at < 0 ? -1 : direction.flits[at];
  const isOnLine = flit >= 0 && (run.flits.landed[flit] || run.steps + 1) >= seen.cursor;
  const mode = direction.modes.findLast(({ step }) => step <= seen.cursor);
  const word = mode ? run.modes[mode.mode] : "train";
  if (word !== "good") return { colour: word === "train" ? GREY : VERMILION, words: word };
  if (!isOnLine) return { colour: "var(--line)", words: "" };
  const what = run.flits.what[flit];
  return { colour: WHAT_COLOURS[what], words: run.whats[what], flit };
}

function lightNetwork() {
  const said = [];
  run.directions.forEach((direction, number) => {
    const now = atCursor(direction);
    arrows[number].line.setAttribute("stroke", now.colour);
    arrows[number].head.setAttribute("fill", now.colour);
    arrows[number].line.setAttribute("stroke-dasharray", now.colour === VERMILION ? "5 3" : "");
    if (now.words) said.push(`${number} ${now.words}`);
  });
  const words = said.length ? `; directions: ${said.join(", ")}` : "; no packet is on a line";
  $("now").textContent = `at ${stepName(Math.max(1, Math.round(seen.cursor)))}${words}`;
}
