// Tests of the check: samples, damaged slips and sheets, random nights, and the answer on other pairings.
//
//     node test.mjs [--reading COMMAND] [--audit COMMAND] [--write COMMAND] [--seed SEED] [--count COUNT]
//
// COMMAND of --reading takes any number of sheets and slips by turns and writes the line of each pair, or, behind the word
// also, the program's last line; that of --audit takes one sheet and one slip, and the first line that it writes counts.
// Every line must be the check's. COMMAND of --write reads a sheet and writes its slip.
import { strict as assert } from "node:assert";
import { spawnSync } from "node:child_process";
import { mkdtempSync, readFileSync, readdirSync, rmSync, writeFileSync } from "node:fs";
import { tmpdir } from "node:os";
import { join } from "node:path";
import { fileURLToPath } from "node:url";
import { another, answerOf, audit, lineOf } from "./check.mjs";
import { damaged, flipped, joined } from "./damage.mjs";
import { bytesOf, nightOf, pairings, randomFrom, randomNight, sheetOf, slipOf, solve, totalOf } from "./nights.mjs";

const here = fileURLToPath(new URL(".", import.meta.url));
const samples = join(here, "../samples");
const options = { seed: "1", count: "6000" };
for (let k = 2; k < process.argv.length; k += 2) options[process.argv[k].slice(2)] = process.argv[k + 1];
const random = randomFrom(Number(options.seed));

// Every sheet and slip that was tried, the line that the check gave, and the program's last line: for the comparison at
// the end.
const tried = [];
const refusals = {};
function line(sheet, slip) {
  const found = audit(sheet, slip);
  const answer = answerOf(found);
  assert.match(answer, /^(Yes|Not shown)\. .*\.$/);
  const [, number] = lineOf(found).match(/^refused (\d+)/) ?? [];
  refusals[number ?? 0] = (refusals[number ?? 0] ?? 0) + 1;
  const other = found.refusal ? null : another(found.night, found.slip);
  tried.push({ sheet, slip, line: lineOf(found), also: found.refusal ? "" : other ? `also ${other.join(" ")}` : "only" });
  return lineOf(found);
}

const upTo = (count) => Array.from({ length: count }, (_, k) => k);
const nothing = new Uint8Array();
const accepted = (night, solution) => `accepted ${night.n} total ${solution.total}`;

// The bytes that the scope writes out.
function written() {
  const sheet = Uint8Array.from(Buffer.from("0700000004000000010001004D544348", "hex"));
  const seven = "07" + "00".repeat(7);
  const slip = Uint8Array.from(Buffer.from(`0000${"00".repeat(8)}${seven}${seven}1A00000001000100534C4950`, "hex"));
  const one = { edition: 1, m: 1, n: 1, costs: [7], bars: [[]] };
  assert.deepEqual(sheetOf(one), sheet);
  assert.deepEqual(slipOf(one, { columns: [0], rowPrices: [0], columnPrices: [7], total: 7 }), slip);
  assert.equal(line(sheet, slip), "accepted 1 total 7");
}

// The samples: what the program refuses is refused here, and what it pairs has a slip that is accepted at its total. 20
// is for the program alone: a night without a pairing has no slip.
function onSamples() {
  const names = readdirSync(samples).filter((name) => name.endsWith(".sheet"));
  assert.ok(names.length >= 15, "the samples");
  for (const name of names) {
    const sheet = new Uint8Array(readFileSync(join(samples, name)));
    const [told] = readFileSync(join(samples, name.replace(".sheet", ".lines")), "utf8").split("\n");
    const { night, refusal } = audit(sheet, nothing);
    if (refusal.number !== 25) {
      assert.equal(line(sheet, nothing), told, name);
      continue;
    }
    const solution = solve(nightOf(night));
    if (solution) assert.equal(line(sheet, slipOf(night, solution)), told, name);
    else assert.equal(told, "refused 20 place 0", name);
    if (options.write && solution) assert.equal(line(sheet, writtenBy(sheet)), told, name);
  }
}

function writtenBy(sheet) {
  const { status, stdout, stderr } = spawnSync(options.write, { input: sheet, shell: true });
  assert.equal(status, 0, String(stderr));
  return new Uint8Array(stdout);
}

// Each bit of a slip, changed: refused. In edition 3 there are two changes that leave a proof of the same total: a spare
// column's price, not below a used one's, and a row that has a spare column instead, at the same cost and price.
function everyBit() {
  const square = [3, 1, 0, 0, 0, 2, 4, 1, 0];
  const nights = [
    { edition: 1, m: 0, n: 0, costs: [], bars: [] },
    { edition: 1, m: 1, n: 1, costs: [7], bars: [[]] },
    { edition: 1, m: 3, n: 3, costs: square, bars: [[], [], []] },
    { edition: 2, m: 0, n: 0, costs: [], bars: [] },
    { edition: 2, m: 2, n: 2, costs: [5, 9, 9, 0], bars: [[0], []] },
    { edition: 2, m: 3, n: 3, costs: square, bars: [[2], [], [0, 1]] },
    { edition: 3, m: 0, n: 0, costs: [], bars: [] },
    { edition: 3, m: 0, n: 2, costs: [], bars: [] },
    { edition: 3, m: 1, n: 2, costs: [1, 0], bars: [[]] },
    { edition: 3, m: 2, n: 4, costs: [3, 1, 0, 5, 0, 0, 2, 1], bars: [[], []] },
    { edition: 3, m: 3, n: 3, costs: square, bars: [[], [], []] },
  ];
  for (const night of nights) {
    const solution = solve(night);
    const [sheet, slip] = [sheetOf(night), slipOf(night, solution)];
    assert.equal(line(sheet, slip), accepted(night, solution));
    for (let bit = 0; bit < 8 * slip.length; bit++) {
      const other = flipped(slip, bit);
      if (line(sheet, other).startsWith("refused ")) continue;
      assert.equal(night.edition, 3, `bit ${bit}`);
      const { columns, columnPrices, rowPrices, total } = audit(sheet, other).slip;
      const spares = (prices) => prices.filter((_, j) => !solution.columns.includes(j)).map(Number);
      if (bit >= 80 * night.m) assert.notDeepEqual(spares(columnPrices), spares(solution.columnPrices));
      else assert.equal(totalOf(night, columns), solution.total);
      assert.deepEqual([rowPrices.map(Number), Number(total)], [solution.rowPrices, solution.total]);
    }
  }
}

// Another pairing, by the depth-first walk that the program's line `also` is defined by.
function walked(night, { columns, columnPrices, rowPrices }) {
  const { m, n, costs, bars } = night;
  const dearest = Math.max(...columns.map((j) => columnPrices[j]));
  const nodes = m < n ? m + 1 : m;
  const behind = (j) => (columns.includes(j) ? columns.indexOf(j) : m);
  const way = (x, c) => {
    if (x === m) return c < m && columnPrices[columns[c]] >= dearest ? c : nodes;
    const tight = !bars[x].includes(c) && costs[x * n + c] <= rowPrices[x] + columnPrices[c];
    return behind(c) !== x && tight && (behind(c) < m || columnPrices[c] <= dearest) ? behind(c) : nodes;
  };
  const [marks, path] = [Array(nodes).fill(0), []];
  for (let turn = 0; turn < 2 * nodes; turn++) {
    const enter = (x) => (path.push(x), (marks[x] = 1));
    const choice = (x) => upTo(n).find((c) => way(x, c) < nodes && marks[way(x, c)] < 2);
    const last = path.at(-1);
    if (last === undefined) enter(marks.findIndex((mark) => mark < 2));
    else if (choice(last) === undefined) (path.pop(), (marks[last] = 2));
    else if (marks[way(last, choice(last))] === 0) enter(way(last, choice(last)));
    else {
      const closed = path.slice(path.indexOf(way(last, choice(last))));
      return columns.map((j, i) => (closed.includes(i) ? choice(i) : j));
    }
  }
  return null;
}

// Random nights: the solver's slip is accepted, its total is the least of all pairings, and another pairing is shown
// exactly where there is one.
function onNights(count, largest) {
  let others = 0;
  for (let k = 0; k < count; k++) {
    const night = randomNight(random, 1 + (k % 3), largest);
    const solution = solve(night);
    const all = largest <= 6 ? [...pairings(night)] : null;
    const sheet = sheetOf(night);
    if (!solution) {
      if (all) assert.equal(all.length, 0);
      continue;
    }
    // A spare column may be priced as high as its places allow, and any amount may go from the rows to the columns.
    const { rowPrices, columnPrices, columns } = solution;
    const highest = (j) => Math.min(...rowPrices.map((price, i) => night.costs[i * night.n + j] - price));
    const raise = (price, j) => (columns.includes(j) || night.m === 0 ? price : random.of([price, highest(j)]));
    if (random.below(2) === 0) solution.columnPrices = columnPrices.map(raise);
    const amount = random.of([0, 0, 0, 1, -7, 1_000_000_000]);
    solution.rowPrices = solution.rowPrices.map((price) => price + amount);
    solution.columnPrices = solution.columnPrices.map((price) => price - amount);
    const slip = slipOf(night, solution);
    assert.equal(line(sheet, slip), accepted(night, solution));
    const read = audit(sheet, slip);
    const other = another(read.night, read.slip);
    assert.deepEqual(other, walked(night, solution));
    if (other) {
      others++;
      assert.notDeepEqual(other, solution.columns);
      assert.equal(totalOf(night, other), solution.total);
      assert.equal(new Set(other).size, night.m);
      assert.ok(other.every((j, i) => j < night.n && !night.bars[i].includes(j)));
    }
    if (!all) continue;
    assert.equal(Math.min(...all.map((columns) => totalOf(night, columns))), solution.total);
    assert.equal(all.filter((columns) => totalOf(night, columns) === solution.total).length > 1, other !== null);
  }
  assert.ok(others > count / 20, `${others} nights with another pairing`);
}

function onDamage(count, largest) {
  let otherSlip = nothing;
  for (let k = 0; k < count; k++) {
    const night = randomNight(random, 1 + (k % 3), largest);
    const [columns, rowPrices, columnPrices] = [upTo(night.m), Array(night.m).fill(0), Array(night.n).fill(-1_000_000)];
    const solution = solve(night) ?? { columns, rowPrices, columnPrices, total: totalOf(night, columns) };
    line(...damaged(random, night, solution, otherSlip));
    otherSlip = slipOf(night, solution);
  }
}

// Bytes of no meaning, with and without marks, and every length of a cut sheet and slip.
function onNoise(count) {
  const noise = (length) => Uint8Array.from({ length }, () => random.of([0, 0, 0, 1, 2, 3, 4, 8, random.below(256)]));
  const marked = (mark) => {
    const trailer = [bytesOf(4, random.below(40)), bytesOf(2, random.below(4)), bytesOf(2, random.below(5))];
    return joined(noise(random.below(60)), ...trailer, Buffer.from(mark));
  };
  const either = (mark) => (random.below(2) === 0 ? marked(mark) : noise(random.below(30)));
  for (let k = 0; k < count; k++) line(either("MTCH"), either("SLIP"));
  const night = { edition: 3, m: 2, n: 3, costs: [1, 2, 3, 3, 2, 1], bars: [[], []], note: [65, 66] };
  const [sheet, slip] = [sheetOf(night), slipOf(night, solve(night))];
  for (let length = 0; length <= sheet.length; length++) line(sheet.slice(sheet.length - length), slip);
  for (let length = 0; length <= slip.length; length++) line(sheet, slip.slice(slip.length - length));
}

// Slips that the program writes, for sheets of every side: accepted at the total of the small solver.
function onWritten(count) {
  for (let k = 0; k < count; k++) {
    const night = randomNight(random, 1 + (k % 2), random.of([4, 9, 64]));
    const solution = solve(night);
    if (solution) assert.equal(line(sheetOf(night), writtenBy(sheetOf(night))), accepted(night, solution));
  }
}

// The check as a command: its first line and its status; a file that is not there.
function asCommand(directory) {
  const night = { edition: 3, m: 1, n: 2, costs: [1, 0], bars: [[]] };
  const [sheet, slip, wrong] = ["night.sheet", "night.slip", "wrong.slip"].map((name) => join(directory, name));
  writeFileSync(sheet, sheetOf(night));
  writeFileSync(slip, slipOf(night, { columns: [1], rowPrices: [2], columnPrices: [-1, -2], total: 0 }));
  writeFileSync(wrong, slipOf(night, { columns: [0], rowPrices: [2], columnPrices: [-1, -2], total: 1 }));
  const run = (...names) => spawnSync(process.execPath, [join(here, "check.mjs"), ...names], { encoding: "utf8" });
  const first = ({ status, stdout }) => [status, stdout.split("\n")[0]];
  assert.deepEqual(first(run(sheet, slip)), [0, "accepted 2 total 0"]);
  assert.deepEqual(first(run(sheet, wrong)), [1, "refused 27 place 1"]);
  assert.deepEqual(first(run(slip, sheet)), [1, "refused 11 place 0"]);
  assert.deepEqual(first(run("/dev/zero", slip)), [1, "refused 17 place 0"]);
  assert.deepEqual(first(run(sheet, join(directory, "none"))), [2, ""]);
  assert.deepEqual(first(run(sheet)), [2, ""]);
}

// The script stands in the page as it is: short, and nothing in it ends the page's script.
function asText() {
  const script = readFileSync(join(here, "check.mjs"), "utf8");
  assert.ok(script.split("\n").length - 1 < 250, "under 250 lines");
  assert.ok(script.split("\n").every((text) => text.length <= 120), "no line is too long to read");
  assert.doesNotMatch(script, /<\/script|<!--/);
}

// Other readings, on everything that was tried.
function compared(directory) {
  const names = new Map();
  const named = (bytes, kind) => {
    const key = `${kind} ${Buffer.from(bytes).toString("latin1")}`;
    if (!names.has(key)) {
      names.set(key, join(directory, `${names.size}.${kind}`));
      writeFileSync(names.get(key), bytes);
    }
    return names.get(key);
  };
  const run = (command, files) => spawnSync(command, files, { encoding: "utf8", maxBuffer: 2 ** 28 });
  const same = (told, found, { sheet, slip }) =>
    assert.equal(told, found, `sheet ${Buffer.from(sheet).toString("hex")} slip ${Buffer.from(slip).toString("hex")}`);
  const pairs = tried.map((one) => [named(one.sheet, "sheet"), named(one.slip, "slip")]);
  for (let from = 0; options.reading && from < tried.length; from += 1000) {
    for (const words of [[], ["also"]]) {
      const { stdout, stderr } = run(options.reading, [...words, ...pairs.slice(from, from + 1000).flat()]);
      const lines = stdout.split("\n").slice(0, -1);
      assert.equal(lines.length, Math.min(1000, tried.length - from), stderr);
      const found = (one) => (words.length ? one.also || one.line : one.line);
      lines.forEach((told, k) => same(told, found(tried[from + k]), tried[from + k]));
    }
  }
  const first = ({ stdout }) => stdout.split("\n")[0];
  if (options.audit) pairs.forEach((files, k) => same(first(run(options.audit, files)), tried[k].line, tried[k]));
}

const directory = mkdtempSync(join(tmpdir(), "page-"));
try {
  const count = Number(options.count);
  asText();
  asCommand(directory);
  written();
  onSamples();
  everyBit();
  onNights(count / 4, 6);
  onNights(60, 64);
  onDamage(count, 5);
  onDamage(count / 20, 64);
  onNoise(count / 4);
  if (options.write) onWritten(count / 50);
  for (const number of [0, 17, 11, 12, 13, 23, 14, 15, 21, 5, 22, 25, 6, 7, 26, 8, 9, 10, 27]) {
    assert.ok(refusals[number] >= 5, `refusal ${number}: ${refusals[number]} times`);
  }
  compared(directory);
  const by = [options.reading && "a plain reading", options.audit && "the audit"].filter(Boolean);
  const compare = by.length ? `all as by ${by.join(" and ")}` : "compared with no other reading";
  console.log(`page: ${tried.length} sheets and slips checked, ${compare}`);
  if (options.counts) console.log(JSON.stringify(refusals));
} finally {
  rmSync(directory, { recursive: true });
}
