// Shows what the check finds: the answer, the sum, the picture, the pairs and the tests. It decides nothing.
const { audit, another, lineOf, answerOf, slackOf, sparesOf, spoken, many } = globalThis.check;
const { made, pictureOf } = globalThis.picture;

const one = (selector) => document.querySelector(selector);
const all = (selector) => [...document.querySelectorAll(selector)];
const html = (tag, attributes = {}, ...children) => made(document.createElement(tag), attributes, children);
const fill = (selector, ...children) => one(selector).replaceChildren(...children);
const rowOf = (...cells) => html("tr", {}, ...cells.map((cell) => html("td", {}, spoken(cell))));

const upTo = (count) => Array.from({ length: count }, (_, k) => k);
const sum = (numbers) => numbers.reduce((total, number) => total + number, 0n);
const least = (numbers) => numbers.reduce((low, number) => (number < low ? number : low));
const most = (numbers) => numbers.reduce((top, number) => (number > top ? number : top));

// What is shown: bytes, and where they come from. The page's own stand in it; where they were spoilt there are none.
function ownBytes(id) {
  try {
    return Uint8Array.from(atob(one(id).textContent.replace(/\s/g, "")), (letter) => letter.charCodeAt(0));
  } catch {
    return new Uint8Array();
  }
}
const own = {
  sheet: { from: "of this page", bytes: ownBytes("#sheet-bytes") },
  slip: { from: "of this page", bytes: ownBytes("#slip-bytes") },
};
const shown = { ...own };

// The row prices and the prices of used columns make up the total, and no place is below its prices.
function showSum({ night: { m, n, places }, night, slip }) {
  const barred = places.some((place) => place.barred);
  const used = slip.columns.map((j) => slip.columnPrices[j]);
  const spare = sparesOf(night, slip).map((j) => slip.columnPrices[j]);
  const total = sum(slip.rowPrices) + sum(used);
  fill("#sum tbody", rowOf("The row prices add up to", sum(slip.rowPrices)),
    rowOf("The prices of the used columns add up to", sum(used)), rowOf("Together, the total of the pairs", total));
  const columns = `${m < n ? "as many columns" : "every column once"}${barred ? ", and no barred place" : ""}`;
  const steps = [
    "Add up: the prices stand in the table of pairs, and so do the costs, which come to the same.",
    `Try any place${barred ? " that is not barred" : ""}: its cost is not below its row price and column price together.`,
    `So a pairing, which takes every row once and ${columns}, costs at least ${spoken(total)}; this one costs no more.`,
  ];
  if (spare.length > 0 && used.length > 0) {
    const ends = `${spoken(least(spare))} is the lowest of the spare, ${spoken(most(used))} the highest of the used`;
    steps.splice(2, 0, `No spare column is priced below a used one: ${ends}.`);
  }
  fill("#sum ol", ...steps.map((words) => html("li", {}, words)));
}

// One place in full, for whoever tries it.
function showPlace({ night: { m, n, places }, slip }, i, j) {
  if (!(i >= 0 && i < m && j >= 0 && j < n)) return;
  const place = places[i * n + j];
  const [u, v] = [slip.rowPrices[i], slip.columnPrices[j]];
  [one("#row").value, one("#column").value] = [i, j];
  one("#try output").textContent = place.barred
    ? "barred: no pairing may use it, so that no cost and no prices count there."
    : `cost ${spoken(place.cost)}; prices ${spoken(u)} and ${spoken(v)}, together ${spoken(u + v)}; ` +
      `slack ${spoken(slackOf(place, slip))}.`;
}

function showPicture(found, other) {
  const { grid, numbers, legend, pointed } = pictureOf(found, other);
  fill("#grid", grid);
  one("figure").className = numbers ? "numbers" : "";
  fill("#picture .legend", ...legend.map(({ swatch, words }) => html("li", {}, swatch, html("span", {}, words))));
  const within = numbers ? ", each with its price; in a place stands its cost, and below it its slack" : "";
  const meaning = found.refusal
    ? "where it is below 0, or not 0 on a pair, the prices show nothing."
    : "a pairing that uses the place costs at least so much more. The darker of the shaded places, the nearer to a pair.";
  fill("#picture figcaption p", `Rows go down and columns across${within}. ` +
    `The slack of a place is its cost less its row price and column price: ${meaning}`);
  const tried = (event) => showPlace(found, ...pointed(event));
  grid.addEventListener("pointermove", tried);
  grid.addEventListener("pointerdown", tried);
  const [row, column] = [one("#row"), one("#column")];
  [row.max, column.max] = [found.night.m - 1, found.night.n - 1];
  row.oninput = column.oninput = () => showPlace(found, row.valueAsNumber, column.valueAsNumber);
  showPlace(found, 0, 0);
}

// The pairs. A last column marks the rows that could have another column, or the row that is refused.
function showPairs({ night, slip, refusal }, other) {
  const { m, n, places } = night;
  const byRow = [6, 7, 10, 26].includes(refusal?.number);
  const flagged = byRow ? refusal.place : refusal?.number === 9 ? Math.floor(refusal.place / n) : undefined;
  const remark = (i) => {
    if (other) return other[i] === slip.columns[i] ? "" : `${other[i]}`;
    return i === flagged ? "refused here" : "";
  };
  const remarks = other || flagged !== undefined;
  const heads = ["row", "column", "cost", "row price", "column price", ...(remarks ? [other ? "or column" : ""] : [])];
  fill("#pairs thead", html("tr", {}, ...heads.map((words) => html("th", { scope: "col" }, words))));
  const rows = slip.columns.map((j, i) => {
    const [cost, price] = j < n ? [places[i * n + j].cost, slip.columnPrices[j]] : ["none", "none"];
    const row = rowOf(i, j, cost, slip.rowPrices[i], price, ...(remarks ? [remark(i)] : []));
    row.className = remark(i) ? "marked" : "";
    return row;
  });
  fill("#pairs tbody", ...rows);
  one("#pairs").classList.toggle("long", m > 20);
  const used = slip.columns.map((j) => slip.columnPrices[j]);
  const costs = slip.columns.map((j, i) => places[i * n + j]?.cost);
  const sums = () => rowOf("sum", "", sum(costs), sum(slip.rowPrices), sum(used), ...(remarks ? [""] : []));
  fill("#pairs tfoot", ...(refusal || m === 0 ? [] : [sums()]));
  const spare = sparesOf(night, slip);
  one("#spares").hidden = spare.length === 0;
  const priced = spare.map((j) => `${j} (price ${spoken(slip.columnPrices[j])})`);
  fill("#spares", `Spare column${spare.length === 1 ? "" : "s"}: ${priced.join(", ")}.`);
}

// Columns for people, with runs drawn together: 0, 4 to 9.
function runs(columns) {
  const found = [];
  for (const j of columns) {
    if (found.at(-1)?.[1] === j - 1) found.at(-1)[1] = j;
    else found.push([j, j]);
  }
  const words = ([from, to]) => (from === to ? `${from}` : `${from}${to === from + 1 ? ", " : " to "}${to}`);
  return found.map(words).join(", ");
}

function showBars({ edition, m, places }) {
  const barred = upTo(m).map((i) => places.filter((place) => place.i === i && place.barred).map(({ j }) => j));
  const count = barred.flat().length;
  one("#bars").hidden = edition !== 2;
  fill("#bars p", count === 0 ? "No place is barred." : `${many(count, "place")} of ${spoken(places.length)} barred:`);
  const lines = barred.map((columns, i) => `row ${i}: column${columns.length === 1 ? "" : "s"} ${runs(columns)}`);
  fill("#bars ul", ...lines.filter((_, i) => barred[i].length > 0).map((words) => html("li", {}, words)));
}

function showTests({ passed, refusal }) {
  const span = (name, words) => html("span", { class: name }, `${words}`);
  const tested = (number, how, said, words) =>
    html("li", {}, span("number", number), span(how, said), span("words", words));
  const lines = passed.map(({ number, words }) => tested(number, "passed", "holds", words));
  if (refusal) {
    const words = `${refusal.words} Place ${spoken(refusal.place)}. What comes after it was not tested.`;
    lines.push(tested(refusal.number, "failed", "refused", words));
  }
  fill("#tests ol", ...lines);
}

// Both files by length and, where the browser makes it, SHA-256.
async function digest(bytes) {
  try {
    const hash = new Uint8Array(await crypto.subtle.digest("SHA-256", bytes));
    return Array.from(hash, (byte) => byte.toString(16).padStart(2, "0")).join("");
  } catch {
    return "not made by this browser";
  }
}

async function showRecord() {
  const lines = ["sheet", "slip"].map((kind) => ({ kind, ...shown[kind], sum: html("code", {}, "..") }));
  fill("#sums", ...lines.flatMap(({ kind, from, bytes, sum }) =>
    [html("dt", {}, `The ${kind} ${from}: ${many(bytes.length, "byte")}, SHA-256`), html("dd", {}, sum)]));
  for (const { bytes, sum } of lines) sum.textContent = await digest(bytes);
}

async function show() {
  const start = performance.now();
  const found = audit(shown.sheet.bytes, shown.slip.bytes);
  const { refusal, night, slip } = found;
  const other = refusal ? null : another(night, slip);
  const [, first, rest] = answerOf(found).match(/^(Yes\.|Not shown\.) (.*)$/);
  fill("#answer", html("b", {}, first), ` ${rest}`);
  document.title = `${lineOf(found)}: a paired night`;
  document.documentElement.className = refusal ? "refused" : "accepted";

  const facts = night ? { rows: night.m, columns: night.n, edition: night.edition } : {};
  const total = slip ? { [refusal ? "total on the slip" : "total"]: slip.total } : {};
  fill("#facts", ...Object.entries({ ...total, ...facts }).map(([name, value]) =>
    html("div", name === "total" ? { class: name } : {}, html("dt", {}, name), html("dd", {}, spoken(value)))),
    html("div", {}, html("dt", {}, "the program’s line"), html("dd", {}, html("code", {}, lineOf(found)))));
  one("#note").hidden = !night?.note;
  fill("#note q", night?.note ?? "");
  one("#sum").hidden = refusal !== null;
  one("#picture").hidden = !slip || night.m === 0;
  one("#pairs").hidden = !slip || night.n === 0;
  if (!one("#sum").hidden) showSum(found);
  if (!one("#picture").hidden) showPicture(found, other);
  if (!one("#pairs").hidden) showPairs(found, other);
  if (night) showBars(night);
  showTests(found);

  const foreign = shown.sheet !== own.sheet || shown.slip !== own.slip;
  one("#foreign").hidden = one("#own").hidden = !foreign;
  one("#foreign").textContent =
    `Shown: the sheet ${shown.sheet.from}, the slip ${shown.slip.from}. This page’s own record is unchanged.`;
  for (const label of all(".drop")) label.querySelector("span").textContent = shown[label.dataset.kind].from;
  // For whoever reads the page by a program.
  const also = other ? `also ${other.join(" ")}` : "only";
  const milliseconds = Math.ceil(performance.now() - start);
  Object.assign(document.documentElement.dataset, { line: lineOf(found), also: refusal ? "" : also, milliseconds });
  await showRecord();
}

// A file is read to one byte more than the longest sheet: enough to see that it is too long. Where it is not said what it
// is, its mark says so.
async function take(kind, file) {
  const bytes = new Uint8Array(await file.slice(0, 65537).arrayBuffer());
  const marked = String.fromCharCode(...bytes.slice(-4)) === "SLIP" ? "slip" : "sheet";
  shown[kind ?? marked] = { from: file.name, bytes };
}

document.addEventListener("dragover", (event) => {
  event.preventDefault();
  event.target.closest?.(".drop")?.classList.add("over");
});
document.addEventListener("dragleave", (event) => event.target.closest?.(".drop")?.classList.remove("over"));
document.addEventListener("drop", async (event) => {
  event.preventDefault();
  all(".drop").forEach((label) => label.classList.remove("over"));
  const files = [...event.dataTransfer.files];
  const kind = files.length === 1 ? event.target.closest?.(".drop")?.dataset.kind : undefined;
  for (const file of files) await take(kind, file);
  await show();
});
for (const label of all(".drop")) {
  label.querySelector("input").addEventListener("change", async ({ target }) => {
    if (target.files.length === 1) await take(label.dataset.kind, target.files[0]);
    await show();
  });
}
one("#own").addEventListener("click", () => {
  Object.assign(shown, own);
  all(".drop input").forEach((input) => (input.value = ""));
  show();
});
for (const kind of ["sheet", "slip"]) {
  one(`#save-${kind}`).addEventListener("click", () => {
    const href = URL.createObjectURL(new Blob([shown[kind].bytes]));
    html("a", { href, download: `night.${kind}` }).click();
  });
}
one("#print").addEventListener("click", () => print());
await show();
document.documentElement.dataset.shown = "yes";
