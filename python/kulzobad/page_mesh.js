// The mesh of chips, by colours and with ways drawn over it.

// ---- The mesh.

/** The middle of a chip; a unit is the way to a neighbour. North leans to the left, as North-East is one of the links. */
function middle(chip) {
  const [x, y] = xy(chip);
  return [UNIT * (x - y / 2), -RISE * y];
}
/** The point that lies so far on the way from a chip to its neighbour by a link. */
function toward(chip, link, share) {
  const [cx, cy] = middle(chip), [dx, dy] = STEPS[link];
  return [cx + UNIT * share * (dx - dy / 2), cy - RISE * share * dy];
}
function corners(cx, cy, radius) {
  const corner = k => [cx + radius * Math.sin(k * Math.PI / 3), cy + radius * Math.cos(k * Math.PI / 3)];
  return [0, 1, 2, 3, 4, 5].map(k => corner(k).map(it => it.toFixed(1)).join(",")).join(" ");
}
function hexagon(chip, classes, share = 0.96) {
  return draw("polygon", { points: corners(...middle(chip), UNIT / Math.sqrt(3) * share), class: classes });
}
const cells = [];
// How large the numbers beside the mesh are seen at least.
const LEAST_AXIS = 12;
const view = { x: 0, y: 0, scale: 1, moved: false };

function bounds() {
  const half = UNIT * 0.85, [left, right] = [-UNIT * (machine.height - 1) / 2, UNIT * (machine.width - 1)];
  return { left: left - half, right: right + half, top: -RISE * (machine.height - 1) - half, low: half + 20 };
}
function place() {
  by("world").setAttribute("transform", `translate(${view.x.toFixed(2)} ${view.y.toFixed(2)}) scale(${view.scale.toFixed(5)})`);
  const size = UNIT * view.scale;
  by("mesh").classList.remove("far", "mid", "close", "near");
  by("mesh").classList.add(size < 24 ? "far" : size < 46 ? "mid" : size < 62 ? "close" : "near");
  by("mesh").style.setProperty("--axis", `${(LEAST_AXIS / view.scale).toFixed(0)}px`);
  if (size >= 24) addNumbers();
}
function whole() {
  const room = by("mesh").getBoundingClientRect(), box = bounds();
  view.scale = Math.min(1.3, (room.width - 24) / (box.right - box.left), (room.height - 60) / (box.low - box.top));
  view.x = room.width / 2 - view.scale * (box.left + box.right) / 2;
  view.y = room.height / 2 + 16 - view.scale * (box.top + box.low) / 2;
  view.moved = false;
  place();
}
function zoom(times, px, py) {
  const room = by("mesh").getBoundingClientRect(), cx = px === undefined ? room.width / 2 : px,
    cy = py === undefined ? room.height / 2 : py;
  const scale = Math.max(0.02, Math.min(4, view.scale * times));
  view.x = cx - (cx - view.x) * scale / view.scale;
  view.y = cy - (cy - view.y) * scale / view.scale;
  Object.assign(view, { scale, moved: true });
  place();
}
function pan(dx, dy) {
  Object.assign(view, { x: view.x + dx, y: view.y + dy, moved: true });
  place();
}
/** Moves a chip into sight, and no further. */
function intoSight(chip) {
  const room = by("mesh").getBoundingClientRect(), edge = 40, [cx, cy] = middle(chip);
  const missing = (place, size) => place < edge ? edge - place : place > size - edge ? size - edge - place : 0;
  const dx = missing(view.x + view.scale * cx, room.width), dy = missing(view.y + view.scale * cy, room.height);
  if (dx || dy) pan(dx, dy);
}

/** The mark of a device. */
function diamond(x, y, half) {
  const size = 2 * half;
  return draw("rect", { x: x - half, y: y - half, width: size, height: size, rx: 3, class: "device", transform: `rotate(45 ${x} ${y})` });
}

function drawMesh() {
  const cellsDrawn = document.createDocumentFragment();
  for (let chip = 0; chip < chips; chip++) {
    const cell = hexagon(chip, "cell");
    fill(cell, { tabindex: 0, role: "button", "data-chip": chip }, [draw("title")]);
    cells.push(cell);
    cellsDrawn.append(cell);
  }
  by("cells").append(cellsDrawn);
  const faults = by("faults"), labels = by("labels");
  for (const [chip, link] of machine.deadLinks) {
    const [cx, cy] = toward(chip, link, 0.5), [ux, uy] = toward(chip, link, 0.75);
    faults.append(draw("line", { x1: cx + uy - cy, y1: cy - ux + cx, x2: cx - uy + cy, y2: cy + ux - cx, class: "broken" }));
  }
  for (const chip of deadCores.keys()) {
    const [cx, cy] = middle(chip);
    faults.append(draw("circle", { cx, cy: cy + 34, r: 7, class: "dead-core" }));
  }
  for (const [, chip, core] of vertices) if (core >= 18) faults.append(diamond(...toward(chip, core - 18, 0.47), 11));
  const step = Math.max(machine.width, machine.height) > 24 ? 8 : 1;
  for (let x = 0; x < machine.width; x++) {
    const [cx, cy] = middle(chipAt(x, 0));
    labels.append(draw("text", { x: cx, y: cy + UNIT * 0.87, class: x % step ? "axis column fine" : "axis column" }, x));
  }
  for (let y = 0; y < machine.height; y++) {
    const [cx, cy] = middle(chipAt(0, y));
    labels.append(draw("text", { x: cx - UNIT * 0.75, y: cy + 9, class: y % step ? "axis side fine" : "axis side" }, y));
  }
}

// The coordinates of a chip stand above its middle, and of a chip with arrows or flows where they meet none.
const numbers = [], coordinates = [], coordinatesAt = new Map(), COORDINATES = [-27, -35, 37, 30, -20];
let besideFlows = new Map();
function addNumbers() {
  if (numbers.length || !chips) return;
  for (let chip = 0; chip < chips; chip++) {
    const [cx, cy] = middle(chip);
    numbers.push(draw("text", { x: cx, y: cy + 11, class: "number" }));
    coordinates.push(draw("text", { x: cx, y: cy + COORDINATES[0], class: "place" }, xy(chip).join(", ")));
    by("labels").append(coordinates[chip], numbers[chip]);
  }
  showNumbers();
}

// ---- What the mesh shows by colour: for each chip a number, and for outputs too where there are such.

const used = chip => (onChip.get(chip) || []).length;
const passes = data.passes ? new Uint32Array(bytesOf(data.passes).buffer) : null;
const SHOWN = {
  use: passes ? { title: "what is used", sorted: "nets that come by", unit: "net comes by", more: "nets come by", cells: chip => passes[chip] }
    : { title: "what is used", sorted: "vertices", unit: "vertex", more: "vertices", cells: used },
  rows: data.trees && { title: "rows of tables", unit: "row", cells: rowCount },
  deliveries: outcome && { title: "copies delivered", unit: "copy delivered", more: "copies delivered",
    cells: chip => deliveries.get(chip) || 0 },
  dumps: outcome && { title: "dump records by output", sorted: "dump records", unit: "dump record",
    cells: chip => (dumps.get(chip) || []).reduce((sum, it) => sum + it[2], 0) },
  links: outcome && { title: "packets that pass a link", unit: "packet by its links", more: "packets by its links", flows: "packet",
    flowsMore: "packets", cells: chip => (passing.get(chip) || []).reduce((sum, it) => sum + it[2], 0) },
  trace: trace && { title: "copies that wait (trace)", unit: "copy waits", more: "copies wait", cells: chip => waiting.get(chip) || 0 },
};
const deliveries = new Map(outcome ? outcome.deliveries : []);
const dumps = grouped(outcome ? outcome.dumps : [], it => it[0]), passing = grouped(outcome ? outcome.links : [], it => it[0]);
let shown = { name: "use", counts: [], most: 0, mostOfFlows: 0 };

// How wide flows of each level are (page.css).
const FLOW_WIDTHS = [0, 3, 5, 7, 9, 11, 13];
const levelOf = (count, most) => count ? Math.ceil(count * 6 / most) : 0;
let waiting = new Map();
function colour() {
  const wanted = asked().get("show"), name = SHOWN[wanted] ? wanted : "use", kind = SHOWN[name];
  if (name === "trace") waiting = waitingNow();
  const counts = [...Array(chips).keys()].map(kind.cells);
  shown = { name, counts, mostOfFlows: 0, most: counts.reduce((most, it) => Math.max(most, it), 0) };
  by("show").value = name;
  const flows = name === "links" ? outcome.links : name === "dumps"
    ? outcome.dumps.filter(it => LINKS.includes(it[1])).map(([chip, out, count]) => [chip, LINKS.indexOf(out), count]) : [];
  const most = flows.reduce((most, it) => Math.max(most, it[2]), 0), paths = new Map();
  shown.mostOfFlows = most;
  const lines = new Map();
  for (const [chip, link, count] of flows) {
    const ends_ = [toward(chip, link, name === "dumps" ? 0.32 : 0.14), toward(chip, link, 0.47)], level = levelOf(count, most);
    const [from, to] = ends_.map(it => it.map(number => number.toFixed(1)));
    paths.set(level, `${paths.get(level) || ""}M${from}L${to}`);
    lines.set(chip, [...(lines.get(chip) || []), [...ends_.map(it => fromMiddle(chip, it)), FLOW_WIDTHS[level]]]);
  }
  besideFlows = new Map([...lines].map(([chip, met]) => [chip, freeCoordinates(chip, met, [])]));
  const lost = name === "dumps" ? " lost" : "", drawn = [...paths].sort((a, b) => a[0] - b[0]);
  by("flows").replaceChildren(...drawn.map(([level, path]) => draw("path", { d: path, class: `flow h${level}${lost}` })));
}

let onTree = new Map();
function paint() {
  const kind = SHOWN[shown.name];
  cells.forEach((cell, chip) => {
    const part = onTree.get(chip), count = shown.counts[chip];
    const amount = !count || kind.flows ? "" : `h${levelOf(count, shown.most)}`;
    cell.setAttribute("class", `cell ${part ? part.classes : dead.has(chip) ? "dead" : amount}`);
    const broken = deadCores.has(chip) && many(deadCores.get(chip).length, "dead core");
    const state = dead.has(chip) ? "dead" : many(count, kind.unit, kind.more);
    const here = kind.unit !== "vertex" && used(chip) > 0 && many(used(chip), "vertex", "vertices");
    const parts = [broken ? `${state}, ${broken}` : state, here, part && part.said, marks.get(chip)];
    const said = `Chip ${at(chip)}: ${parts.filter(it => it).join("; ")}`;
    cell.setAttribute("aria-label", said);
    cell.firstChild.textContent = said;
  });
  by("mesh").classList.toggle("aside", onTree.size > 0);
  showNumbers();
  showLegend();
}
function showNumbers() {
  const isPlain = SHOWN[shown.name].flows;
  numbers.forEach((label, chip) => {
    const isOver = !isPlain && !onTree.size && levelOf(shown.counts[chip], shown.most) > 1;
    label.textContent = dead.has(chip) || !shown.counts[chip] || isPlain ? "" : shown.counts[chip].toLocaleString("en");
    label.setAttribute("class", `number${label.textContent.length > 4 ? " long" : ""}${isOver ? " over" : ""}`);
    const placed = [coordinatesAt, besideFlows].find(it => it.has(chip)), y = placed ? placed.get(chip) : COORDINATES[0];
    coordinates[chip].setAttribute("class", dead.has(chip) ? "place in-dead" : isOver ? "place over" : "place");
    coordinates[chip].setAttribute("visibility", y === undefined ? "hidden" : "visible");
    if (y !== undefined) coordinates[chip].setAttribute("y", middle(chip)[1] + y);
  });
}
function showLegend() {
  const sign = (box, shape, words) => make("li", {}, draw("svg", { viewBox: box, "aria-hidden": "true" }, shape), words);
  const swatch = (classes, words) => sign("-55 -60 110 120", draw("polygon", { points: corners(0, 0, 52), class: `cell ${classes}` }),
    words);
  const stroke = (classes, words) => sign("0 0 30 30", draw("line", { x1: 2, y1: 15, x2: 28, y2: 15, class: classes }), words);
  const kind = SHOWN[shown.name], listed = [];
  if (onTree.size) {
    listed.push(swatch("root", "starts here"), swatch("target", "has vertices that get it"), swatch("way", "on the way, by a row"),
      swatch("way straight-on", "straight on: no row"), stroke("hop-line", "its packets"));
  } else {
    const [most, one, more, drawn] = kind.flows ? [shown.mostOfFlows, kind.flows, kind.flowsMore, stroke]
      : [shown.most, kind.unit, kind.more || kind.unit + "s", swatch];
    if (!kind.flows || !most) listed.push(swatch("", `no ${more}`));
    else listed.push(make("li", {}, "By the links, each drawn in the chip that they leave:"));
    for (let level = 1; level <= 6; level++) {
      const [low, high] = [Math.floor((level - 1) * most / 6) + 1, Math.floor(level * most / 6)];
      if (low <= high) listed.push(drawn(kind.flows ? `flow h${level}` : `h${level}`,
        low === high ? many(high, one, more) : `${low} to ${many(high, one, more)}`));
    }
  }
  if (shown.name === "dumps" && shown.mostOfFlows) listed.push(stroke("flow h4 lost", "on the way to a link, thicker for more"));
  if (by("astray").childElementCount) listed.push(stroke("astray-line", "goes astray"));
  if (dead.size) listed.push(swatch("dead", "dead"));
  if (machine.deadLinks.length) listed.push(stroke("broken", "dead link"));
  if (deadCores.size) listed.push(sign("0 0 30 30", draw("circle", { cx: 15, cy: 15, r: 8, class: "dead-core" }), "has dead cores"));
  if (vertices.some(it => it[2] >= 18)) listed.push(sign("0 0 30 30", diamond(15, 15, 9), "device"));
  by("legend").replaceChildren(...listed);
}

// ---- Ways over the mesh. Words keep clear of arrows: they stand where they meet none, or are left out, and the pointer tells them.

// Where an arrow begins and ends, as shares of the way to a neighbour, and where one that leads nowhere does.
const ARROW = [0.32, 0.68], OFF_PAPER = 0.58, NOWHERE = [0.26, 0.7], LETTER = 0.6;
// How wide arrows are, their heads, and what goes astray with the ground round it (page.css).
const WIDE = 5, HEAD_WIDE = 16, ASTRAY_WIDE = 17;
const PLACES = [0, -14, 14, -24, 24, -32, 32].flatMap(y => [0, -12, 12, -22, 22, -30, 30].map(x => [x, y]))
  .sort((a, b) => Math.hypot(...a) - Math.hypot(...b));

/** Whether a line from one point to another meets a box round a point. */
function meetsBox([x, y], [ex, ey], cx, cy, wide, tall) {
  let first = 0, last = 1;
  for (const [start, step, low, high] of [[x, ex - x, cx - wide, cx + wide], [y, ey - y, cy - tall, cy + tall]]) {
    if (Math.abs(step) < 1e-9) {
      if (start < low || start > high) return false;
    } else {
      const [one, other] = [(low - start) / step, (high - start) / step].sort((a, b) => a - b);
      [first, last] = [Math.max(first, one), Math.min(last, other)];
    }
  }
  return first <= last;
}
/** Whether a box round a point lies inside a chip whose middle is 0, 0. */
function isInside(x, y, wide, tall) {
  const farX = Math.abs(x) + wide, farY = Math.abs(y) + tall;
  return farX <= UNIT * 0.48 && farY + farX / Math.sqrt(3) <= UNIT / Math.sqrt(3) * 0.94;
}
function fromMiddle(chip, [x, y]) {
  const [cx, cy] = middle(chip);
  return [x - cx, y - cy];
}
/** The arrows on a chip by which packets come and leave, each as a line from the chip's middle, and how wide it is; that of a head goes
    before its tip. */
function linesAt(chip, outs, port, isAstray) {
  const line = (link, from, to, wide) => [...[from, to].map(share => fromMiddle(chip, toward(chip, link, share))), wide];
  const tip = 1 - ARROW[1] - 0.04;
  return [...outs.filter(out => out < 6).map(out => line(out, 0.2, 0.6, isAstray(out) ? ASTRAY_WIDE : WIDE)),
    ...(port < 6 ? [line(port, 0.6, tip, WIDE), line(port, tip + 0.16, tip + 0.06, HEAD_WIDE)] : [])];
}
/** Whether a line of some width meets a box round a point. */
const isMet = ([from, to, thick], x, y, wide, tall) => meetsBox(from, to, x, y, wide + thick / 2, tall + thick / 2);
/** Where the coordinates of a chip meet neither these lines nor words at these heights; nothing where they find no place. */
function freeCoordinates(chip, lines, taken) {
  // (below the middle is the dot of dead cores)
  const wide = 4 * xy(chip).join(", ").length, free = COORDINATES.filter(y => y < 0 || !deadCores.has(chip));
  return free.find(y => !lines.some(it => isMet(it, 0, y - 5, wide, 7)) && !taken.some(it => Math.abs(it - y) < 19));
}
/** Words on a chip, in one line or in several, where they meet none of these lines; nothing where they find no place. */
function wordsOn(chip, choicesOf, lines) {
  const [cx, cy] = middle(chip);
  for (const words of choicesOf) {
    const layouts = [[words.join(" ")], ...(words.length > 2 ? [[words.slice(0, 2).join(" "), words.slice(2).join(" ")]] : []), words];
    for (const size of [20, 17]) for (const layout of layouts) {
      const wide = Math.max(...layout.map(it => it.length)) * size * LETTER / 2, tall = layout.length * size / 2;
      const found = PLACES.find(([x, y]) => isInside(x, y, wide, tall)
        && !lines.some(it => isMet(it, x, y, wide + 3, tall + 2)));
      if (!found) continue;
      const classes = size < 20 ? "word small tree-word" : "word tree-word";
      return layout.map((line, i) => draw("text",
        { "data-chip": chip, x: cx + found[0], y: cy + found[1] + size * (i - (layout.length - 1) / 2 + 0.36), class: classes }, line));
    }
  }
  return [];
}
/** What stands on a chip of a tree, the best choice first. */
function choicesFor(isFirst, row, outs) {
  const cores = outs.filter(out => out >= 6).map(outWord), head = [isFirst && "source", row < 0 && "no row"].filter(it => it);
  const short = cores.length > 1 ? [`${cores.length} cores`] : [];
  const choices = [[...head, ...(cores.length > 6 ? short : cores)], [...head, ...short], head, cores, short];
  return choices.filter(it => it.length);
}

/** A hop that goes astray, above all else: an arrow of its own colour and with a head of it; or a ring round the chip at which it ends. */
function drawAstray(chip, out, lines, word) {
  const group = by("astray");
  if (out !== null && out < 6) {
    const [[x1, y1], [x2, y2]] = NOWHERE.map(share => toward(chip, out, share));
    group.append(draw("line", { x1, y1, x2, y2, class: "round" }),
      draw("line", { x1, y1, x2, y2, class: "hop-line lost", "marker-end": "url(#tip-astray)" }));
  } else {
    group.append(hexagon(chip, "hop-lost-ring", 0.94));
    for (const it of word ? wordsOn(chip, [[word]], lines) : []) {
      it.setAttribute("class", "word");
      group.append(it);
    }
  }
}

/** Draws visits over the mesh: of a net, of a key, or of a verdict, of which the last output is the one that goes astray. */
function drawVisits(visits, targets, isVerdict = false) {
  const overlay = by("overlay"), words = [], lines = new Map();
  onTree = new Map();
  const isLost = (chip, out) => out < 6 && ends[chip * 6 + out] === NONE && !standing.has(chip * 32 + 18 + out);
  visits.forEach(({ chip, port, outs }, i) => {
    const isAstray = out => isLost(chip, out) || (isVerdict && i === visits.length - 1);
    lines.set(chip, [...(lines.get(chip) || []), ...linesAt(chip, outs, port, isAstray)]);
  });
  visits.forEach(({ chip, port, row, outs }, i) => {
    const gets = outs.filter(out => out >= 6 || (ends[chip * 6 + out] === NONE && standing.has(chip * 32 + 18 + out)));
    const before = onTree.get(chip),
      kind = i === 0 ? "root" : before ? before.classes : gets.length || targets.has(chip) ? "target" : "way";
    const classes = row < 0 ? `${kind} straight-on` : kind;
    const parts = [i === 0 && "starts here", row >= 0 ? `row ${row}` : port === LOCAL ? "no row" : "no row, straight on",
      `leaves by ${outs.map(outWord).join(", ") || "nothing"}`];
    const said = parts.filter(it => it).join(", ");
    onTree.set(chip, { classes, said: before ? `${before.said}; again, ${said}` : said });
    const isLast = isVerdict && i === visits.length - 1;
    if (!before) words.push(...wordsOn(chip, choicesFor(i === 0, row, isLast ? [] : outs), lines.get(chip)));
    for (const out of outs.filter(it => it < 6)) {
      const isEnd = ends[chip * 6 + out] === NONE;
      if (isLost(chip, out) || isLast) {
        drawAstray(chip, out, []);
        continue;
      }
      const [x, y] = xy(chip), isOff = chipAt(x + STEPS[out][0], y + STEPS[out][1]) === null;
      const [x1, y1] = toward(chip, out, isEnd ? 0.22 : ARROW[0]), [x2, y2] = toward(chip, out, isEnd ? 0.42 : isOff ? OFF_PAPER : ARROW[1]);
      overlay.append(draw("line", { x1, y1, x2, y2, class: "hop-line", "marker-end": "url(#tip)" }));
    }
    if (isLast && !outs.some(it => it < 6)) drawAstray(chip, null, lines.get(chip), outs.map(outWord).join(" "));
  });
  by("labels").append(...words);
  for (const [chip, met] of lines) {
    const taken = words.filter(it => it.dataset.chip === String(chip)).map(it => Number(it.getAttribute("y")) - middle(chip)[1]);
    coordinatesAt.set(chip, freeCoordinates(chip, met, taken));
  }
}

const marks = new Map((data.refusal ? data.refusal.marks : []).map(it => it));
function clearOverlay() {
  onTree = new Map();
  coordinatesAt.clear();
  by("overlay").replaceChildren(...[...marks.keys()].map(chip => hexagon(chip, "mark", 0.9)));
  by("astray").replaceChildren();
  document.querySelectorAll(".tree-word").forEach(it => it.remove());
}
