// The reports and the ledger as lists that are sorted, filtered and shown in parts; and the search over both.
const fewer = 50; // reports that are shown at once
const wordsOf = (text) => text.split(" ").filter((word) => word);
const search = named("search"), drawn = named("drawn"), table = named("entries");
const reports = [...document.querySelectorAll("details.report")].map((element) => {
  const { trigger, node, fate, records, gaps } = element.dataset;
  return { element, trace: element.id.slice(6), trigger: wordsOf(trigger), node: wordsOf(node), fate: wordsOf(fate), records: Number(records), gaps: Number(gaps) };
});
const reportOf = (trace) => reports.find((it) => it.trace === trace)?.element;
const wanted = () => search.elements.trace.value.trim().toLowerCase();
const compared = (a, b) => (a < b ? -1 : a > b ? 1 : 0);

// A list in parts: what of it is shown, and the form that leads through it.
function listOf(form, found, show, most) {
  const list = { from: 0 };
  list.draw = () => {
    const them = found(form.elements), last = Math.max(0, Math.floor((them.length - 1) / most) * most);
    list.from = Math.max(0, Math.min(list.from, last));
    show(them.slice(list.from, list.from + most));
    form.querySelector(".count").textContent = them.length ? `${list.from + 1} to ${Math.min(list.from + most, them.length)} of ${them.length}` : "none";
    form.elements.back.disabled = list.from === 0;
    form.elements.next.disabled = list.from === last;
  };
  form.hidden = false;
  form.addEventListener("submit", (event) => event.preventDefault());
  form.addEventListener("input", () => ((list.from = 0), list.draw()));
  form.elements.back.onclick = () => ((list.from -= most), list.draw());
  form.elements.next.onclick = () => ((list.from += most), list.draw());
  return list;
}

// Where these leave two equal, the incomplete stays before the whole: so they stand in the page.
const orders = {
  gaps: () => 0,
  most: (a, b) => b.gaps - a.gaps,
  records: (a, b) => b.records - a.records,
  trace: (a, b) => compared(a.trace, b.trace),
  trigger: (a, b) => Number(a.trigger[0] ?? 0) - Number(b.trigger[0] ?? 0),
  node: (a, b) => Number(a.node[0]) - Number(b.node[0]),
  fate: (a, b) => compared(a.fate.join(" "), b.fate.join(" ")),
};
function reportsFound({ order, trigger, node, fate }) {
  const trace = wanted(), fits = (values, field) => !field.value || values.includes(field.value);
  return reports.filter((it) => it.trace.includes(trace) && fits(it.trigger, trigger) && fits(it.node, node) && fits(it.fate, fate)).sort(orders[order.value]);
}
const reportList = drawn && listOf(drawn.previousElementSibling, reportsFound, (them) => drawn.replaceChildren(...them.map((it) => it.element)), fewer);
const drawReports = () => reportList?.draw();

// Brings a report into view: where it is not among those that are shown, all filters go.
function openReport(element) {
  if (!element.isConnected) {
    drawn.previousElementSibling.reset();
    search.reset();
    reportList.from = Math.floor(reports.findIndex((it) => it.element === element) / fewer) * fewer;
    searched();
  }
  element.open = true;
  element.scrollIntoView({ block: "start" });
}

let order = null, falls = false;
const ranks = [];
// For each entry the rank of its cell among all that stand in this column: numbers are sorted faster than words.
function ranksOf(place) {
  if (ranks[place]) return ranks[place];
  const cells = [...new Set(entries.map((it) => it.cells[place]))].sort(compared), rank = new Map(cells.map((cell, at) => [cell, at]));
  return (ranks[place] = entries.map((it) => rank.get(it.cells[place])));
}
function entriesFound({ fate, node }) {
  const trace = wanted();
  const found = entries.filter((it) => (!fate.value || it.kind === fate.value) && (!node.value || it.cells[0] === Number(node.value)) && it.trace.includes(trace));
  if (order !== null) found.sort((a, b) => ranksOf(order)[a.at] - ranksOf(order)[b.at]);
  return falls ? found.reverse() : found;
}
function row(it) {
  const [node, client, number] = it.cells, cells = [node, client, link("record", nameOf(it), number), traceOf(it.trace), it.cells[4]];
  if (it.line) (cells[4] = fateOf(it)).dataset.line = it.line;
  return make("tr", { class: it.kind }, ...cells.map((cell) => make("td", {}, cell)));
}
const ledgerList = listOf(table.previousElementSibling, entriesFound, (them) => table.tBodies[0].replaceChildren(...them.map(row)), most);
const drawLedger = () => ledgerList.draw();
// Brings a record into view, in the ledger where no link to it is in view: where it is not among those that are found, all filters go.
function openRecord(it) {
  const address = `#record-${nameOf(it)}`, links = () => [...document.querySelectorAll(`a[href='${address}']`)].filter((a) => !there.contains(a));
  const inView = ({ width, top, bottom }) => width > 0 && top >= 0 && bottom <= innerHeight - there.offsetHeight;
  if (links().some((a) => inView(a.getBoundingClientRect()))) return;
  const form = table.previousElementSibling;
  if (!entriesFound(form.elements).includes(it)) form.reset(), search.reset(), searched();
  ledgerList.from = Math.floor(entriesFound(form.elements).indexOf(it) / most) * most;
  drawLedger();
  table.querySelector(`a[href='${address}']`).scrollIntoView({ block: "center" });
}
table.tHead.addEventListener("click", (event) => {
  const button = event.target.closest("button");
  if (!button) return;
  const place = Number(button.dataset.sort);
  falls = order === place && !falls, order = place, ledgerList.from = 0;
  table.tHead.querySelectorAll("th").forEach((head, at) => head.setAttribute("aria-sort", at !== place ? "none" : falls ? "descending" : "ascending"));
  drawLedger();
});

// Both lists show the traces that have what is looked for alone; beside it stands how many there are, with links to the first.
function searched() {
  const trace = wanted(), said = search.querySelector(".count");
  drawReports();
  drawLedger();
  const found = trace ? [...new Set(entries.filter((it) => it.trace.includes(trace)).map((it) => it.trace))] : [];
  const shown = found.slice(0, 5).flatMap((it) => [" ", traceOf(it)]);
  if (trace) said.replaceChildren(found.length ? `${found.length} found, and shown alone below:` : "no trace has this", ...shown, found.length > 5 ? " .." : "");
  else said.replaceChildren();
  return found;
}
search.hidden = false;
search.addEventListener("input", () => ((ledgerList.from = 0), reportList && (reportList.from = 0), searched()));
search.addEventListener("submit", (event) => {
  event.preventDefault();
  const found = searched();
  if (found.length) (opener = search.elements.trace), go(`#trace-${found.includes(wanted()) ? wanted() : found[0]}`);
});
