// The time lines of all nodes on one axis, of which only what is in view is drawn: marks from near, bars from afar.
const times = JSON.parse(named("times").textContent), pane = named("line").querySelector(".wide"), zoom = named("zoom");
const columns = times.firsts[times.firsts.length - 1], lane = 18, near = 10, nearest = 24, bin = 4;
const bad = new Set(["null", "missed", "unread", "evicted", "abandoned", "reported"]); // the kinds whose bars have a look of their own
let wide = 12, here = 0; // how wide a column is, and the line that is shown

function shape(name, values, ...inside) {
  const element = document.createElementNS(document.querySelector("svg").namespaceURI, name);
  for (const key in values) element.setAttribute(key, values[key]);
  element.append(...inside);
  return element;
}
// The events of a node, in the order of their columns; `out` is how many buffers are out of the pool after each.
function eventsOf(node) {
  let out = 0;
  return node.passes.flatMap((events, pass) => {
    const found = [];
    for (let at = 0; at < events.length; at += 3) {
      const kind = times.kinds[events[at]];
      out += kind === "got" ? 1 : kind === "given" ? -1 : 0;
      found.push({ kind, what: times.names[events[at]], lane: events[at + 1], line: events[at + 2], pass: pass + 1, column: times.firsts[pass] + at / 3, out });
    }
    return found;
  });
}
const nodes = times.nodes.map((node) => ({ ...node, events: eventsOf(node) }));

// The first place of a rising list whose value is not below this one.
function placeOf(list, value, of = (it) => it) {
  let low = 0, high = list.length;
  while (low < high) {
    const middle = (low + high) >> 1;
    if (of(list[middle]) < value) low = middle + 1;
    else high = middle;
  }
  return low;
}
const column = (it) => it.column;
const within = (events, from, to) => events.slice(placeOf(events, from, column), placeOf(events, to, column));

function marks(node, events, x) {
  return events.map((it) => {
    const title = shape("title", {}, [`${it.what}: line ${it.line} '${lines[it.line - 1]}', pass ${it.pass}.`, ...explained(it.line)].join(" "));
    const place = { x: x(it.column) + (wide - 10) / 2, y: node.top + lane * (1 + it.lane) };
    const use = shape("use", { href: `#s-${it.kind}`, class: it.line === here ? `m ${it.kind} here` : `m ${it.kind}`, "data-line": it.line, ...place }, title);
    const ring = it.line === here ? [shape("rect", { class: "ring", x: place.x - 2, y: place.y, width: 14, height: 16 })] : [];
    return shape("a", { href: `#step-${it.line}` }, use, ...ring);
  });
}
// In each lane a bar for so many columns, as high as its count beside the greatest of the lane; its look is that of the worst in it.
function bars(node, events, x, width) {
  const room = Math.ceil(width / bin) + 2, counts = Array.from({ length: node.lanes }, () => new Uint32Array(room)), worst = counts.map(() => new Array(room));
  for (const it of events) {
    const place = Math.max(0, Math.floor(x(it.column) / bin));
    counts[it.lane][place]++;
    if (bad.has(it.kind)) worst[it.lane][place] = it.kind;
  }
  return counts.flatMap((found, at) => {
    const greatest = Math.max(1, ...found), paths = {}, bottom = node.top + lane * (2 + at) - 2;
    found.forEach((count, place) => {
      const kind = worst[at][place] ?? "";
      if (count) paths[kind] = `${paths[kind] ?? ""}M${place * bin} ${bottom}v${-Math.max(2, (16 * count) / greatest)}h${bin - 0.5}V${bottom}z`;
    });
    return Object.entries(paths).map(([kind, d]) => shape("path", { class: `fill ${kind}`, d }));
  });
}
function area(node, events, x, width) {
  const bottom = node.top + node.high - 12, first = placeOf(node.events, events[0]?.column ?? 0, column), highest = new Map();
  let out = node.events[first - 1]?.out ?? 0, points = `0,${bottom} 0,${bottom - (40 * out) / node.most}`;
  for (const it of events) {
    const at = Math.floor(x(it.column));
    highest.set(at, Math.max(highest.get(at) ?? 0, it.out));
  }
  for (const [at, value] of highest) {
    points += ` ${at},${bottom - (40 * out) / node.most} ${at},${bottom - (40 * value) / node.most}`;
    out = value;
  }
  return shape("polygon", { class: "area", points: `${points} ${width},${bottom - (40 * out) / node.most} ${width},${bottom}` });
}
// Where passes begin: lines through all nodes, from afar not all of them, with their numbers above each node where there is room.
function passes(x, width) {
  const found = [], from = placeOf(times.firsts, -x(0) / wide);
  let last = -100;
  for (let at = Math.max(0, from - 1); at < times.firsts.length - 1 && x(times.firsts[at]) < width; at++) {
    const place = x(times.firsts[at]);
    const room = place > last + 12 + 6 * String(at).length;
    if (room || wide >= near) found.push(shape("line", { class: "pass", x1: place, x2: place, y1: 0, y2: times.high }));
    if (!room) continue;
    last = place;
    for (const node of nodes) found.push(shape("text", { class: "small", x: place + 2, y: node.top + 13 }, String(at + 1)));
  }
  return found;
}
function lanes(node, width) {
  return Array.from({ length: node.lanes }, (_, at) => shape("rect", { class: "lane", x: 0, y: node.top + lane * (1 + at), width, height: lane - 2 }));
}
function drawLine() {
  const width = pane.clientWidth, from = pane.scrollLeft, x = (it) => it * wide - from, drawing = pane.querySelector("svg");
  const parts = nodes.flatMap((node) => lanes(node, width)).concat(passes(x, width));
  for (const node of nodes) {
    const events = within(node.events, Math.floor(from / wide), Math.ceil((from + width) / wide));
    parts.push(area(node, events, x, width), ...(wide < near ? bars : marks)(node, events, x, width));
  }
  drawing.setAttribute("width", width);
  drawing.setAttribute("class", wide < near ? "afar" : "");
  drawing.replaceChildren(...parts);
  named("bars").hidden = wide >= near;
  const first = placeOf(times.firsts, from / wide + 1), last = placeOf(times.firsts, (from + width) / wide);
  zoom.querySelector(".count").textContent = `passes ${Math.max(1, first)} to ${Math.min(last, times.firsts.length - 1)} of ${times.firsts.length - 1}${wide < near ? "; a click on a bar goes nearer" : ""}`;
}
const fitting = () => Math.min(12, pane.clientWidth / Math.max(1, columns));
// Makes a column so wide, and keeps one of them where it is in view.
function widen(to, kept = (pane.scrollLeft + pane.clientWidth / 2) / wide, at = pane.clientWidth / 2) {
  wide = Math.min(nearest, Math.max(fitting(), to));
  pane.firstElementChild.style.width = `${Math.max(pane.clientWidth, Math.ceil(columns * wide))}px`;
  pane.scrollLeft = kept * wide - at;
  drawLine();
}
// Shows a line of the journal in the time lines; 0 shows none.
function nearTo(line, scrolls) {
  if (!line && !here) return;
  const found = line && nodes.map((node) => node.events.find((it) => it.line === line)).find((it) => it);
  here = line;
  if (found) widen(Math.max(wide, 12), found.column);
  else drawLine();
  if (found && scrolls) pane.querySelector(".ring").scrollIntoView({ block: "center", inline: "nearest" });
}
function beginLine() {
  pane.replaceChildren(make("div", { class: "all" }, shape("svg", { height: times.high, role: "img", "aria-label": "time lines of all nodes" })));
  zoom.hidden = false;
  zoom.elements.nearer.onclick = () => widen(wide * 4);
  zoom.elements.farther.onclick = () => widen(wide / 4);
  zoom.elements.whole.onclick = () => widen(0, 0, 0);
  let waits = false;
  pane.addEventListener("scroll", () => {
    if (!waits) requestAnimationFrame(() => ((waits = false), drawLine()));
    waits = true;
  });
  pane.addEventListener("click", (event) => {
    const at = event.clientX - pane.getBoundingClientRect().left;
    if (wide < near) widen(wide * 6, (pane.scrollLeft + at) / wide, at);
  });
  addEventListener("resize", () => widen(wide));
  widen(columns > 400 ? 0 : 12, 0, 0);
}
begin();
