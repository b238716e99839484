// What all of the script stands on: the text of the page, its entries, and the panel that shows what the address names.
const named = (id) => document.getElementById(id);
const output = named("output"), there = named("there"), lines = output.textContent.split("\n");
const journalEnd = Number(output.dataset.journal), most = 200;
const entries = entriesOf(), shipped = shippedOf();
let opener = null;

function make(name, values, ...inside) {
  const element = document.createElement(name);
  for (const key in values) element.setAttribute(key, values[key]);
  element.append(...inside);
  return element;
}
const link = (kind, name, shown) => make("a", { href: `#${kind}-${name}` }, shown);
const traceOf = (trace) => link("trace", trace, make("code", {}, trace));

// The ledger, with the step and the moment of each entry as far as they are known.
function entriesOf() {
  const first = lines.findIndex((line) => line.startsWith("ledger ")) + 1, count = Number(lines[first - 1].split(" ")[1]);
  const [places, moments] = ["places", "moments"].map((id) => named(id).textContent.split(" "));
  return lines.slice(first, first + count).map((line, at) => {
    const [node, client, number, trace, kind] = line.split(" ", 5), fate = line.slice(line.indexOf(trace) + trace.length + 1);
    return { cells: [Number(node), Number(client), Number(number), trace, fate], trace, kind, line: Number(places[at]), moment: moments[at], at };
  });
}
const nameOf = (it) => it.cells.slice(0, 3).join("-");
// The moment and the payload of each record of a report.
function shippedOf() {
  const found = new Map(), first = lines.findIndex((line) => line.startsWith("reports ")) + 1;
  const keep = ([node, client, number, moment, payload]) => found.set(`${node}-${client}-${number}`, { moment, payload });
  for (const [, ...words] of lines[first].matchAll(/\[(\d+),(\d+),(\d+),(\d+),"([^"]*)"\]/g)) keep(words); // where reports are JSON
  for (let at = first; !lines[at].startsWith("ledger "); at++) if (/^\d/.test(lines[at])) keep(lines[at].split(" "));
  return found;
}
function momentOf(it, unit = "") {
  const moment = shipped.get(nameOf(it))?.moment ?? it.moment;
  return moment === "-" ? "not told" : BigInt(moment).toLocaleString("en") + unit;
}
// A payload as text where it can be printed, else its digits.
function payloadOf(it) {
  const digits = shipped.get(nameOf(it))?.payload;
  if (digits === undefined) return "not shipped";
  if (digits === "-") return "no bytes";
  try {
    const said = new TextDecoder("utf-8", { fatal: true, ignoreBOM: true }).decode(Uint8Array.from(digits.match(/../g), (two) => parseInt(two, 16)));
    if (/^(?:[^\p{C}\p{Z}]| )*$/u.test(said)) return make("q", {}, said);
  } catch {} // these bytes are no text
  return make("code", {}, digits);
}

// What a step of the journal did, and why, in sentences.
function explained(line) {
  const { buffers, threshold, traces, pins } = times.limits;
  if (lines[line - 1].startsWith("empty ")) return [`The pool was empty${buffers ? `: all ${buffers} buffers were out` : ""}. What the client wrote there is lost.`];
  return (times.effects[line] ?? []).map(([kind, text]) => {
    const words = text.split(" ");
    if (kind === "evicted") return `The index held ${words[3]} chunks of ${words[4]} traces, and may hold ${threshold} of ${traces}: trace ${words[1].slice(0, -1)}, touched longest ago, was evicted.`;
    if (kind === "abandoned") return `More than ${pins} chunks were pinned: of trigger ${words[1]} the group with the lead ${words[2]}, of the lowest priority, was abandoned.`;
    if (kind === "reported") return `It shipped a page of ${text.split(",")[0]}.`;
    if (kind === "claimed") return `It claimed ${text}.`;
    if (kind === "told" || kind === "forgotten") return text; // sentences already
    return kind === "limited" ? `The attempt of ${text}: its bucket had no token.` : `And ${text} more.`;
  });
}
// The same with a link to each line that it names.
const whyOf = (line) => explained(line).join(" ").split(/(line \d+)/).map((part) => (/^line \d+$/.test(part) ? link("step", part.slice(5), part) : part));
// The line of the journal with those about it.
function journalAbout(line) {
  const pre = make("pre", {});
  for (let at = Math.max(1, line - 5); at <= Math.min(journalEnd, line + 5); at++)
    pre.append(make(at === line ? "mark" : "span", {}, `${String(at).padStart(6)}  ${lines[at - 1]}\n`));
  return pre;
}
function headOf(line) {
  while (line > 1 && !/^(draws|log|coordinator|journal)/.test(lines[line - 1])) line--;
  return lines[line - 1];
}
function rowsOf(them, heads, cells) {
  const body = make("tbody", {}, ...them.slice(0, most).map((it) => make("tr", { class: it.kind }, ...cells(it).map((cell) => make("td", {}, cell)))));
  const table = make("table", {}, make("thead", {}, make("tr", {}, ...heads.map((head) => make("th", {}, head)))), body);
  return them.length > most ? make("div", {}, table, `and ${them.length - most} more`) : table;
}
const fateOf = (it) => (it.line ? link("step", it.line, it.cells[4]) : it.cells[4]);
const recordOf = (it) => link("record", nameOf(it), it.cells.slice(0, 3).join("."));

// What the panel says of a step, a record and a trace; null where there is none.
function toldOfStep(name) {
  const line = Number(name), decided = entries.filter((it) => it.line === line);
  if (!(line >= 1 && line <= journalEnd)) return null;
  const told = [make("h2", {}, `Line ${line} of the journal, under '${headOf(line)}'`), make("p", {}, ...whyOf(line)), journalAbout(line)];
  const listed = (what, them) => them.length && told.push(make("p", {}, what), rowsOf(them, ["record", "trace", "fate"], (it) => [recordOf(it), traceOf(it.trace), it.cells[4]]));
  listed("It decided these fates:", decided.filter((it) => it.kind !== "live"));
  listed("The chunk that it took still stands in the index at the end, since nobody claimed its trace at this node. It has:", decided.filter((it) => it.kind === "live"));
  return { told, line };
}
function toldOfRecord(name) {
  const it = entries.find((entry) => nameOf(entry) === name);
  if (!it) return null;
  const [node, client, number] = it.cells;
  const about = make("p", {}, "Trace ", traceOf(it.trace), `, moment ${momentOf(it, " µs")}, payload: `, payloadOf(it), ". Its fate: ", make("b", {}, it.cells[4]), ".");
  const told = [make("h2", {}, `Record ${number} of client ${client}, node ${node}`), about];
  const where = [link("step", it.line, `line ${it.line} of the journal`), `, under '${headOf(it.line)}'`];
  if (it.line && it.kind === "live") told.push(make("p", {}, "Its chunk was taken at ", ...where, ", and still stands in the index at the end: nobody claimed its trace at this node."), journalAbout(it.line));
  else if (it.line) told.push(make("p", {}, "That was decided at ", ...where, ". ", ...whyOf(it.line)), journalAbout(it.line));
  return { told, line: it.line, entry: it };
}
function toldOfTrace(trace) {
  const them = entries.filter((it) => it.trace === trace);
  if (!them.length) return null;
  const report = reportOf(trace), told = [make("h2", {}, `Trace ${trace}`), make("p", {}, report ? report.querySelector("summary").textContent.replace(trace, "Its report has").replace(",", "") + "." : "It has no report: no node claimed it.")];
  const about = report?.querySelector("ul");
  if (about) told.push(about.cloneNode(true));
  told.push(rowsOf(them, ["record", "moment (µs)", "fate", "payload"], (it) => [recordOf(it), momentOf(it), fateOf(it), payloadOf(it)]));
  return { told, report };
}

// Shows what the address names, and where it stands in the page.
function tell() {
  const [, kind, name] = /^#(step|record|trace)-(.+)$/.exec(location.hash) ?? [];
  if (!kind) return hide();
  const found = { step: toldOfStep, record: toldOfRecord, trace: toldOfTrace }[kind](name);
  const close = make("button", { type: "button" }, "close");
  close.onclick = leave;
  there.replaceChildren(close, ...(found?.told ?? [make("h2", {}, `There is no ${kind} ${name} here`)]));
  there.hidden = false;
  document.documentElement.style.scrollPaddingBottom = document.body.style.paddingBottom = `${there.offsetHeight + 12}px`;
  there.scrollTop = 0;
  const line = there.querySelector("mark");
  if (line) there.scrollTop = Math.max(0, line.offsetTop + line.offsetHeight - there.clientHeight + 8);
  nearTo(found?.line ?? 0, kind === "step");
  if (found?.entry) openRecord(found.entry);
  if (found?.report) openReport(found.report);
}
function hide() {
  there.hidden = true;
  document.documentElement.style.scrollPaddingBottom = document.body.style.paddingBottom = "";
  nearTo(0, false);
}
// Follows a link of the page; the back button leads back to where it stood.
function go(address) {
  if (location.hash !== address) history.pushState(null, "", address);
  tell();
}
function leave() {
  history.pushState(null, "", location.href.split("#")[0]);
  hide();
  if (opener?.isConnected) opener.focus();
}
function begin() {
  output.querySelectorAll("[id]").forEach((it) => it.removeAttribute("id")); // the panel shows the lines instead
  document.addEventListener("click", (event) => {
    const a = event.target.closest("a");
    if (!a || event.ctrlKey || event.metaKey || event.shiftKey || event.altKey) return;
    event.preventDefault();
    if (!there.contains(a)) opener = a;
    go(a.getAttribute("href"));
  });
  document.addEventListener("keydown", (event) => {
    if (event.key === "Escape" && !there.hidden) leave();
  });
  addEventListener("popstate", tell);
  drawReports();
  drawLedger();
  beginLine();
  if (location.hash) tell();
}
