// The copies of a trace, event by event.
// ---- A trace.

const copies = trace ? trace.copies.map(it => ({ packet: it[1], kind: it[2], a: it[3], b: it[4], since: 0 })) : [];
let taken = 0, timer = null;
function takeTo(wanted) {
  if (wanted < taken) {
    copies.length = trace.copies.length;
    trace.copies.forEach((it, i) => { copies[i] = { packet: it[1], kind: it[2], a: it[3], b: it[4], since: 0 }; });
    taken = 0;
  }
  for (; taken < wanted; taken++) {
    for (const [copy, packet, kind, a, b] of trace.steps[taken]) copies[copy] = { packet, kind, a, b, since: taken + 1 };
  }
}
const waits = it => it.kind === QUEUED || it.kind === HELD || it.kind === AT_CORE;
/** How many copies wait on each chip; one in hand counts for each output by which it still has to leave. */
function waitingNow() {
  const counts = new Map();
  for (const it of copies) if (waits(it)) counts.set(it.a, (counts.get(it.a) || 0) + (it.kind === HELD ? bitsOf(it.b).length : 1));
  return counts;
}
function sums() {
  const count = kind => copies.filter(it => it.kind === kind).length;
  const waiting = copies.reduce((sum, it) => sum + (it.kind === HELD ? bitsOf(it.b).length : waits(it) ? 1 : 0), 0);
  return [count(DELIVERED), count(DUMPED), waiting, count(UNSENT)];
}
const eventWord = event => event.length === 2 ? `${event[0]} ${event[1]}` : `${event[0]} (${event[1]}, ${event[2]}) ${event[3]}`;
const eventChip = event => event.length === 2 ? vertices[vertexNamed.get(event[1])][1] : chipAt(event[1], event[2]);
function packetWord(packet) {
  const [net, index] = trace.packets[packet];
  return [netLink(nets[net]), ` ${hex(nets[net].blocks[0].key + index, 8)}`];
}
function placeWord(it) {
  if (it.kind === UNSENT) return ["unsent at ", vertexLink(it.a)];
  if (it.kind === DELIVERED) return ["delivered to ", vertexLink(it.a)];
  if (it.kind === DUMPED) return ["dumped at ", chipLink(it.a), ` ${outWord(it.b)}`];
  if (it.kind === QUEUED) return [chipLink(it.a), ` in ${PORTS[it.b]}`];
  if (it.kind === AT_CORE) return [chipLink(it.a), ` core ${it.b}`];
  return [chipLink(it.a), ` hand ${bitsOf(it.b).map(outWord).join(" ")}`];
}
function queuesOf(listed) {
  const queues = [...grouped(listed.filter(it => it.kind === QUEUED || it.kind === AT_CORE), it => `${it.a} ${it.kind} ${it.b}`)];
  queues.sort(([, [first]], [, [second]]) => first.a - second.a || first.kind - second.kind || first.b - second.b);
  return queues.map(([, held]) => make("tr", { class: "queue" },
    make("td", {}, chipLink(held[0].a)),
    make("td", {}, held[0].kind === QUEUED ? `in ${PORTS[held[0].b]}` : coreWord(held[0].b)),
    make("td", { class: "n" }, `${held.length} of ${trace.queue}`),
    make("td", {}, held.sort((a, b) => a.since - b.since).map(it => it.packet).join(", "))));
}
function traceAt(chip) {
  const here = copies.filter(it => waits(it) && it.a === chip), hand = here.find(it => it.kind === HELD);
  const held = hand ? `In hand: packet ${hand.packet}, still to leave by ${bitsOf(hand.b).map(outWord).join(", ")}` : "Its hand is empty.";
  return [make("h3", {}, `Copies after event ${taken}`), make("p", {}, held),
    here.some(it => it.kind !== HELD) && table(["Chip", "Queue", "copies", "packets"], queuesOf(here), [2])];
}
function answerEvent() {
  const [delivered, dumped, waiting, unsent] = sums(), event = taken ? trace.events[taken - 1] : null;
  const around = [...Array(trace.events.length).keys()].slice(Math.max(0, taken - 6), taken + 6);
  const eventRow = i => make("tr", { class: i + 1 === taken ? "now" : null },
    make("td", { class: "n" }, make("a", { href: hrefOf("event", i + 1) }, i + 1)),
    make("td", { class: "names" }, eventWord(trace.events[i])),
    make("td", {}, trace.moved[i] ? "moved" : make("span", { class: "straight" }, "idle")));
  const copyRow = it => make("tr", { class: it.since === taken && taken ? "copy now" : "copy" },
    make("td", { class: "n" }, it.packet),
    make("td", { class: "names" }, packetWord(it.packet)),
    make("td", {}, placeWord(it)));
  const chip = event ? eventChip(event) : null;
  if (chip !== null) by("overlay").append(hexagon(chip, "now", 0.84));
  const kept = copies.filter(it => it.kind !== GONE).sort((a, b) => a.packet - b.packet || a.since - b.since), queues = queuesOf(copies);
  return [
    make("h2", {}, `After event ${taken} of ${trace.events.length}`),
    make("p", { id: "sums" }, `delivered ${delivered} dumped ${dumped} waiting ${waiting} unsent ${unsent}`),
    table(["", "Event", ""], around.map(eventRow), [0]),
    queues.length > 0 && [make("h3", {}, "Queues"),
      longTable(["Chip", "Queue", "copies", "packets, first to leave first"], queues, it => it, [2], 40)],
    make("h3", {}, "Copies"),
    longTable(["Packet", "Net, key", "Where"], kept, copyRow, [0], 200),
  ];
}
function showEvent() {
  const event = taken ? trace.events[taken - 1] : null;
  by("slider").value = taken;
  const words = event ? `Event ${taken} of ${trace.events.length}: ${eventWord(event)}, ${trace.moved[taken - 1] ? "moved" : "idle"}`
    : `Before the ${many(trace.events.length, "event")}`;
  by("slider").setAttribute("aria-valuetext", words);
  by("event").textContent = words;
}
function step(wanted) {
  const to = Math.max(0, Math.min(trace.events.length, wanted));
  ask(new URLSearchParams({ event: to, show: "trace" }), true);
}
function play(on) {
  if (timer) clearInterval(timer);
  timer = null;
  if (on) {
    if (taken >= trace.events.length) step(0);
    timer = setInterval(() => { if (taken >= trace.events.length) play(false); else step(taken + 1); }, Number(by("pace").value));
  }
  by("play").textContent = timer ? "Stop" : "Play";
  by("play").setAttribute("aria-label", timer ? "Stop" : "Play");
}
