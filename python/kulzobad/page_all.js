// All together: what is shown, and the keys and buttons.

// ---- All together.

/** The boxes in which somebody types: an answer that comes meanwhile, as of a trace that is played, leaves them alone. */
const typedIn = new Set();
const setBox = (box, text) => { if (!typedIn.has(box)) by(box).value = text; };
function listenToTyping(box) {
  by(box).addEventListener("input", () => typedIn.add(box));
  by(box).addEventListener("blur", () => typedIn.delete(box));
  by(box).form.addEventListener("submit", () => typedIn.delete(box));
}

const say = words => { by("said").textContent = words; };
function render() {
  const what = asked(), answer = by("answer");
  document.body.dataset.answered = question;
  if (!machine) {
    answer.replaceChildren(...[refusalPart()].flat(Infinity).filter(it => it),
      make("p", {}, "The machine of the job can't be read, so there is no mesh to show."));
    return;
  }
  if (trace && what.has("event")) takeTo(Math.max(0, Math.min(trace.events.length, Number(what.get("event")) || 0)));
  clearOverlay();
  colour();
  const parts = what.has("net") ? answerNet(what.get("net")) : what.has("chip") ? answerChip(what.get("chip")) : what.has("key")
    ? answerKey(what.get("key")) : trace && what.has("event") ? answerEvent() : answerOverview();
  // (where a link of the old answer was followed by the keyboard, the new one is where it goes on)
  const wasInside = answer !== document.activeElement && answer.contains(document.activeElement);
  answer.replaceChildren(make("div", {}, parts));
  if (wasInside) answer.focus({ preventScroll: true });
  setBox("net", what.get("net") || "");
  setBox("chip", what.get("chip") || "");
  if (what.has("key")) setBox("key", what.get("key").split("@")[0]);
  if (trace) showEvent();
  paint();
}

/** A box that lists names that match as one types. */
function choices(form, input, list, names, chosen) {
  let active = -1, matches = [];
  const close = () => { list.hidden = true; active = -1; input.setAttribute("aria-expanded", "false");
    input.removeAttribute("aria-activedescendant"); };
  const mark = wanted => {
    active = wanted;
    [...list.children].forEach((it, i) => it.setAttribute("aria-selected", String(i === active)));
    if (active >= 0) { input.setAttribute("aria-activedescendant", list.children[active].id);
      list.children[active].scrollIntoView({ block: "nearest" }); } else input.removeAttribute("aria-activedescendant");
  };
  const choose = text => { close(); typedIn.delete(input.id); chosen(text); };
  input.addEventListener("input", () => {
    const typed = input.value.toLowerCase(), starts = [], others = [];
    if (typed) for (const it of names) { const found = it[0].toLowerCase().indexOf(typed); if (found === 0) starts.push(it);
      else if (found > 0) others.push(it); if (starts.length >= 30) break; }
    matches = [...starts, ...others].slice(0, 30);
    list.replaceChildren(...matches.map(([name, more], i) => make("li",
      { id: `${list.id}-${i}`, role: "option", "aria-selected": "false",
      onmousedown: event => { event.preventDefault(); choose(name); } }, name, make("span", {}, more))));
    list.hidden = !matches.length;
    input.setAttribute("aria-expanded", String(matches.length > 0));
    active = -1;
  });
  input.addEventListener("keydown", event => {
    if (event.key === "Escape" && !list.hidden) { close(); event.stopPropagation(); }
    if ((event.key === "ArrowDown" || event.key === "ArrowUp") && matches.length && !list.hidden) { event.preventDefault();
      mark((active + (event.key === "ArrowDown" ? 1 : matches.length - (active < 0 ? 0 : 1))) % matches.length); }
  });
  input.addEventListener("blur", close);
  form.addEventListener("submit", event => {
    event.preventDefault();
    const typed = input.value.trim();
    if (active >= 0) choose(matches[active][0]);
    else if (typed) choose(names.some(it => it[0] === typed) || matches.length !== 1 ? typed : matches[0][0]);
  });
}

/** One pointer moves the mesh, two zoom it, and one that stays where it is asks the chip below it. */
function listenToPointers(mesh) {
  const held = new Map();
  let moved = false, chip = null;
  mesh.addEventListener("pointerdown", event => {
    if (event.button !== 0) return;
    if (!held.size) [moved, chip] = [false, event.target.closest("[data-chip]")];
    held.set(event.pointerId, { x: event.clientX, y: event.clientY });
  });
  mesh.addEventListener("pointermove", event => {
    const was = held.get(event.pointerId), now = { x: event.clientX, y: event.clientY };
    if (!was || (!moved && Math.abs(now.x - was.x) + Math.abs(now.y - was.y) < 4)) return;
    if (!moved) mesh.classList.add("held");
    moved = true;
    mesh.setPointerCapture(event.pointerId);
    const other = [...held.entries()].find(([id]) => id !== event.pointerId), room = mesh.getBoundingClientRect();
    const apart = it => Math.hypot(it.x - other[1].x, it.y - other[1].y) || 1;
    if (other) zoom(apart(now) / apart(was), other[1].x - room.left, other[1].y - room.top);
    else pan(now.x - was.x, now.y - was.y);
    held.set(event.pointerId, now);
  });
  const release = event => {
    if (!held.delete(event.pointerId) || held.size) return;
    mesh.classList.remove("held");
    if (event.type === "pointerup" && !moved && chip) go("chip", xy(Number(chip.dataset.chip)).join(","));
  };
  mesh.addEventListener("pointerup", release);
  mesh.addEventListener("pointercancel", release);
}
function listenToMesh() {
  const mesh = by("mesh");
  listenToPointers(mesh);
  mesh.addEventListener("wheel",
    event => { event.preventDefault(); const room = mesh.getBoundingClientRect();
    zoom(Math.exp(-event.deltaY * (event.deltaMode ? 0.05 : 0.0015)), event.clientX - room.left, event.clientY - room.top); },
    { passive: false });
  mesh.addEventListener("focusin",
    event => { if (event.target.dataset.chip && event.target.matches(":focus-visible")) intoSight(Number(event.target.dataset.chip)); });
  mesh.addEventListener("keydown", event => {
    const moves = { ArrowLeft: [1, 0], ArrowRight: [-1, 0], ArrowUp: [0, 1], ArrowDown: [0, -1] }[event.key],
      chip = event.target.dataset.chip;
    if (moves && event.shiftKey && chip !== undefined) {
      const [x, y] = xy(Number(chip)), next = chipAt(x - moves[0], y + moves[1]);
      if (next !== null) cells[next].focus();
    } else if (moves) pan(moves[0] * 60, moves[1] * 60);
    else if ((event.key === "Enter" || event.key === " ") && chip !== undefined) go("chip", xy(Number(chip)).join(","));
    else return;
    event.preventDefault();
  });
}
function listenToBoxes() {
  by("nearer").addEventListener("click", () => zoom(1.4));
  by("farther").addEventListener("click", () => zoom(1 / 1.4));
  by("whole").addEventListener("click", whole);
  by("skip").addEventListener("click", () => by("answer").focus());
  by("show").addEventListener("change",
    () => { const what = asked(); what.set("show", by("show").value); ask(what); });
  by("help-open").addEventListener("click", () => by("help").showModal());
  addEventListener("resize", () => { if (!view.moved) whole(); });
  addEventListener("hashchange", readAddress);
  for (const box of ["net", "chip", "key"]) listenToTyping(box);
  choices(by("ask-net"), by("net"), by("net-list"),
    nets.map(it => [it.name, `${nameOf(it.source)}, ${many(it.targets.length, "target")}`]), name => go("net", name));
  choices(by("ask-chip"), by("chip"), by("chip-list"), vertices.map(it => [it[0], `${at(it[1])} ${coreWord(it[2])}`]),
    name => go("chip", name));
  by("ask-key").addEventListener("submit", event => {
    event.preventDefault();
    const from = by("from").value.trim(), found = /^\(?\s*(\d+)[\s,]+(\d+)\s*\)?$/.exec(from), vertex = vertexNamed.get(from);
    const chip = found ? [found[1], found[2]] : vertex === undefined ? from ? [from] : null : xy(vertices[vertex][1]);
    go("key", chip ? `${by("key").value.trim()}@${chip.join(",")},${by("port").value}` : by("key").value.trim());
  });
}
function listenToKeys() {
  addEventListener("keydown", event => {
    if (event.key === "Escape" && !by("help").open) {
      if (event.target.matches("input, select")) event.target.blur();
      if (event.target.matches("select")) return;
      go("", "");
      return;
    }
    if (event.ctrlKey || event.metaKey || event.altKey || event.target.matches("input:not([type=range]), select, textarea")
      || by("help").open) return;
    const focus = { n: "net", c: "chip", k: "key", m: "mesh", a: "answer", s: "show", t: "slider" }[event.key];
    if (focus && !(focus === "slider" && !trace)) { by(focus).focus(); if (by(focus).select) by(focus).select(); }
    else if (event.key === "+" || event.key === "=") zoom(1.4);
    else if (event.key === "-") zoom(1 / 1.4);
    else if (event.key === "0") whole();
    else if (event.key === "?") by("help").showModal();
    else if (event.key === "p" && trace) play(!timer);
    else return;
    event.preventDefault();
  });
}
function listenToTrace() {
  by("slider").addEventListener("input", () => { play(false); step(Number(by("slider").value)); });
  for (const [id, wanted] of [["first", () => 0], ["back", () => taken - 1], ["forth", () => taken + 1],
    ["last", () => trace.events.length]]) by(id).addEventListener("click", () => { play(false); step(wanted()); });
  by("play").addEventListener("click", () => play(!timer));
  by("pace").addEventListener("change", () => { if (timer) play(true); });
}

if (machine) {
  by("facts").textContent = [`${machine.width} by ${machine.height} chips`, many(vertices.length, "vertex", "vertices"),
    many(nets.length, "net"), data.trees ? many(totalRows(), "row") : "refused",
    ...(outcome ? [`${outcome.delivered.toLocaleString("en")} delivered`, `${outcome.dumped.toLocaleString("en")} dumped`]
    : [])].join(" \u00b7 ");
  by("facts").title = by("facts").textContent;
  by("show").replaceChildren(...Object.entries(SHOWN).filter(it => it[1]).map(([name, { title }]) => make("option", { value: name },
    title)));
  if (trace) { by("trace").hidden = false; by("slider").max = trace.events.length; }
  drawMesh();
  listenToMesh();
  listenToBoxes();
  listenToKeys();
  if (trace) listenToTrace();
  whole();
} else document.body.classList.add("meshless");
if (data.refusal) { by("refused").hidden = false;
  by("refused").append(make("b", {}, "Refused: "), make("span", { class: "mono" }, data.refusal.line)); }
render();
// For tests: what answers for the page.
globalThis.kulzobad = { data, planOf, rowOf, walk, endsOf };
