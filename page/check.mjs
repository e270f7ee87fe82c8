// Is that sum really the least? Holds a slip against its sheet: reads the bytes of both and makes every test again. It
// shares no code with the program that wrote the slip. It stands in the page, and runs as a command too:
//
//     node check.mjs SHEET SLIP
//
// Why the tests are enough. The slip gives each row and each column a price. Where no place costs less than its two
// prices together, but for barred ones, which no pairing takes, every pairing costs at least the prices of its rows
// and columns; and the pairing on the slip costs just that. Where columns are left over, none of them is priced below
// a used one, so that taking it saves nothing.
//
// Costs, prices and sums are BigInts: none is rounded. Rows, columns and places count from 0; the place of row i and
// column j is i*n+j, where n is the number of columns. All numbers in the bytes have their lowest byte first.

const LONGEST_SHEET = 65536;
const LONGEST_NOTE = 4096;
const LARGEST_SIDE = 64;
const PRICE_LIMIT = 10_000_000_000n;
const COST_LIMITS = { 1: 1_000_000_000n, 2: 1_000_000n, 3: 1_000_000_000n }; // by edition
const TRAILER = 12; // distance (4 bytes), side (2), edition (2), mark (4)

// For people: 4,096; 1 row, 2 rows; 1, 2 and 3; -10 to 10.
export const spoken = (number) => String(number).replace(/\B(?=(\d{3})+$)/g, ",");
export const many = (count, one) => `${spoken(count)} ${one}${count === 1 ? "" : "s"}`;
const listed = (words) => words.join(", ").replace(/, ([^,]*)$/, " and $1");
const range = (limit) => `${spoken(-limit)} to ${spoken(limit)}`;

const upTo = (count, make) => Array.from({ length: count }, (_, k) => make(k));
const outside = (number, limit) => number < -limit || number > limit;
const sum = (numbers) => numbers.reduce((all, number) => all + number, 0n);
const highest = (numbers) => numbers.reduce((top, number) => (number > top ? number : top));

// A test fails at a place, or at none.
const none = -1;
const failsIf = (wrong) => (wrong ? 0 : none);
const firstOf = (count, wrong) => upTo(count, (k) => k).findIndex(wrong);

// The audit of any bytes: the tests that were passed, in order and in words; the refusal, null where all were passed;
// and the night and the slip, each null where it could not be read.
export function audit(sheetBytes, slipBytes) {
  const found = { passed: [], refusal: null, night: null, slip: null };
  // One test, which fails at this place or at none. The first that fails ends the audit.
  const test = (number, place, holds, fails) => {
    if (place === none) return found.passed.push({ number, words: holds });
    found.refusal = { number, place, words: fails(place) };
    throw found.refusal;
  };
  try {
    found.night = readSheet(sheetBytes, test);
    found.slip = readSlip(slipBytes, found.night, test);
    testSlip(found.night, found.slip, test);
  } catch (thrown) {
    if (thrown !== found.refusal) throw thrown;
  }
  return found;
}

const viewOf = (bytes) => new DataView(bytes.buffer, bytes.byteOffset, bytes.byteLength);
const textOf = (bytes) => Array.from(bytes, (byte) => String.fromCharCode(byte)).join("");

function trailerOf(bytes) {
  const [data, at] = [viewOf(bytes), bytes.length - TRAILER];
  const [side, edition] = [data.getUint16(at + 4, true), data.getUint16(at + 6, true)];
  return { distance: data.getUint32(at, true), side, edition, mark: textOf(bytes.slice(at + 8)) };
}

// A sheet: a note, the costs in row order (4 bytes each), in edition 2 the bars (8 bytes a row, bit j for column j), in
// edition 3 the row count (2 bytes), and the trailer, whose distance leads back to the first cost.
function readSheet(bytes, test) {
  const [data, end] = [viewOf(bytes), bytes.length - TRAILER];
  const length = many(bytes.length, "byte");
  test(17, failsIf(bytes.length > LONGEST_SHEET), `The sheet has ${length}, not over ${spoken(LONGEST_SHEET)}.`,
    () => `The sheet has more than ${spoken(LONGEST_SHEET)} bytes.`);
  test(11, failsIf(end < 0 || trailerOf(bytes).mark !== "MTCH"), "It ends with a trailer and a sheet's mark, MTCH.",
    () => `This is no sheet: its ${length} do not end with a trailer and the mark MTCH.`);
  const { distance, side: n, edition } = trailerOf(bytes);
  test(12, failsIf(!(edition in COST_LIMITS)), `It is of edition ${edition}.`,
    () => `The sheet is of edition ${spoken(edition)}, and there are only 1, 2 and 3.`);
  test(13, failsIf(n > LARGEST_SIDE), `Its side is ${n}, not over ${LARGEST_SIDE}.`,
    () => `The sheet's side is ${spoken(n)}, over ${LARGEST_SIDE}.`);
  let m = n;
  if (edition === 3) {
    const counted = end >= 2;
    m = counted ? data.getUint16(end - 2, true) : 0;
    test(23, counted ? (m > n ? m : none) : 0, `It has ${many(m, "row")}, not more than its ${many(n, "column")}.`,
      () => (counted ? `The sheet has ${many(m, "row")}, only ${many(n, "column")}.` : "The sheet has no row count."));
  }
  const due = 4 * m * n + { 1: 0, 2: 8 * n, 3: 2 }[edition];
  const parts = many(m * n, "cost") + { 1: "", 2: ` and ${many(n, "row")} of bars`, 3: " and a row count" }[edition];
  test(14, failsIf(distance !== due), `Its trailer points ${many(due, "byte")} back, over ${parts}.`,
    () => `The sheet's trailer points ${many(distance, "byte")} back; over ${parts} it is ${spoken(due)}.`);
  test(15, failsIf(distance > end), "These bytes are all there.",
    () => `The sheet is cut off: of ${many(distance, "byte")} before its trailer only ${spoken(end)} are there.`);
  const start = end - distance;
  test(21, firstOf(start, (k) => k >= LONGEST_NOTE || bytes[k] < 32 || bytes[k] > 126),
    `Its note has ${many(start, "byte")}, not over ${spoken(LONGEST_NOTE)}, each a printed character.`,
    (k) => (k < LONGEST_NOTE ? `Byte ${spoken(k)} of the note is not a printed one.` : "The note is too long."));
  const costs = upTo(m * n, (k) => BigInt(data.getInt32(start + 4 * k, true)));
  const limit = COST_LIMITS[edition];
  test(5, firstOf(m * n, (k) => outside(costs[k], limit)), `${many(m * n, "cost")}: none outside ${range(limit)}.`,
    (k) => `Row ${Math.floor(k / n)}, column ${k % n}: the cost ${spoken(costs[k])} is outside ${range(limit)}.`);
  const bars = upTo(m, (i) => (edition === 2 ? data.getBigUint64(end - 8 * (n - i), true) : 0n));
  if (edition === 2) {
    test(22, firstOf(n, (i) => bars[i] >> BigInt(n) !== 0n), `${many(n, "row")} of bars: none past the last column.`,
      (i) => `Row ${i} has a bar past the last column: there are only ${many(n, "column")}.`);
  }
  const place = (i, j) => ({ i, j, cost: costs[i * n + j], barred: ((bars[i] >> BigInt(j)) & 1n) === 1n });
  const places = upTo(m * n, (k) => place(Math.floor(k / n), k % n));
  return { edition, m, n, note: textOf(bytes.slice(0, start)), places };
}

// A slip: the column of each row (2 bytes), the price of each row (8) and of each column (8), the total (8), in edition
// 3 the row count (2), and a trailer, whose distance leads back to the first byte.
function readSlip(bytes, { edition, m, n }, test) {
  const [data, body] = [viewOf(bytes), 10 * m + 8 * n + (edition === 3 ? 10 : 8)];
  const sized = bytes.length === body + TRAILER;
  const is = sized ? trailerOf(bytes) : {};
  const rows = sized && edition === 3 ? data.getUint16(body - 2, true) : m;
  const unlike = [
    [sized, many(bytes.length, "byte")],
    [is.mark === "SLIP", "no mark SLIP"],
    [is.edition === edition, `edition ${is.edition}`],
    [is.side === n, many(is.side, "column")],
    [rows === m, many(rows, "row")],
    [is.distance === body, "another distance in its trailer"],
  ].find(([agrees]) => !agrees);
  const form = `${many(body + TRAILER, "byte")}, edition ${edition}, ${many(m, "row")}, ${many(n, "column")}`;
  test(25, failsIf(unlike), `The slip has the form of this sheet's: ${form}.`,
    () => `The slip is not this sheet's, which has ${form}: it has ${unlike[1]}.`);
  return {
    columns: upTo(m, (i) => data.getUint16(2 * i, true)),
    rowPrices: upTo(m, (i) => data.getBigInt64(2 * m + 8 * i, true)),
    columnPrices: upTo(n, (j) => data.getBigInt64(10 * m + 8 * j, true)),
    total: data.getBigInt64(10 * m + 8 * n, true),
  };
}

// How far a place's cost is above its two prices together.
export const slackOf = (place, slip) => place.cost - slip.rowPrices[place.i] - slip.columnPrices[place.j];
// The places of the pairs, and the columns that no row has.
const pairsOf = (night, slip) => slip.columns.map((j, i) => night.places[i * night.n + j]);
export const sparesOf = (night, slip) => upTo(night.n, (j) => j).filter((j) => !slip.columns.includes(j));

function testSlip(night, slip, test) {
  const { edition, m, n, places } = night;
  const { columns, rowPrices, columnPrices, total } = slip;
  test(6, firstOf(m, (i) => columns[i] >= n), `${many(m, "row")}: none with a column that is not there.`,
    (i) => `Row ${i} has column ${spoken(columns[i])}, and there are only ${many(n, "column")}.`);
  test(7, firstOf(m, (i) => columns.indexOf(columns[i]) < i), `${many(m, "row")}: no two with the same column.`,
    (i) => `Rows ${columns.indexOf(columns[i])} and ${i} both have column ${columns[i]}.`);
  const pairs = pairsOf(night, slip);
  if (edition === 2) {
    test(26, pairs.findIndex((pair) => pair.barred), `${many(m, "pair")}: none at a barred place.`,
      (i) => `Row ${i} has column ${columns[i]}, which is barred to it.`);
  }
  const prices = [...rowPrices, ...columnPrices];
  const limits = range(PRICE_LIMIT);
  test(8, firstOf(m + n, (k) => outside(prices[k], PRICE_LIMIT)), `${many(m + n, "price")}: none outside ${limits}.`,
    (k) => `${k < m ? `Row ${k}` : `Column ${k - m}`} has the price ${spoken(prices[k])}, outside ${limits}.`);
  const told = ({ i, j, cost }) =>
    `Row ${i}, price ${spoken(rowPrices[i])}, and column ${j}, price ${spoken(columnPrices[j])}, cost ${spoken(cost)}`;
  const allowed = places.filter((place) => !place.barred).length;
  test(9, places.findIndex((place) => !place.barred && slackOf(place, slip) < 0n),
    `${many(allowed, "place")}: none over its cost, row price and column price together.` +
      (allowed < m * n ? ` (${spoken(m * n - allowed)} barred.)` : ""),
    (k) => `${told(places[k])}: the prices together are ${spoken(-slackOf(places[k], slip))} over the cost.`);
  test(10, pairs.findIndex((pair) => slackOf(pair, slip) !== 0n), `${many(m, "pair")}: each costs just its two prices.`,
    (i) => `${told(pairs[i])}: a pair, and its prices together are ${spoken(slackOf(pairs[i], slip))} below the cost.`);
  if (edition === 3) {
    const below = (j) => columns.find((used) => columnPrices[j] < columnPrices[used]);
    const spares = sparesOf(night, slip);
    test(27, spares.find((j) => below(j) !== undefined) ?? none,
      `${many(spares.length, "spare column")}: none priced below a used one.`,
      (j) => `Spare column ${j} has the price ${spoken(columnPrices[j])}, below that of used column ${below(j)}.`);
  }
  const all = sum(pairs.map((pair) => pair.cost));
  test(25, failsIf(all !== total), `The ${many(m, "pair")} cost ${spoken(all)} in all, and so says the slip.`,
    () => `The slip says a total of ${spoken(total)}, and its pairs cost ${spoken(all)} in all.`);
}

// Of an accepted slip: the columns of another pairing that costs the same, or null where there is none. Such a pairing
// has only places of slack 0, and changes used columns for spare ones only at the highest price of a used one. So it
// differs in rounds: a row takes the column of the next, the last that of the first; all spare columns are one member.
export function another(night, slip) {
  const { m, n, places } = night;
  const { columns, columnPrices } = slip;
  if (m === 0) return null;
  const top = highest(columns.map((j) => columnPrices[j]));
  const dear = (j) => columnPrices[j] === top;
  const holder = (j) => (columns.includes(j) ? columns.indexOf(j) : m); // member m: the spare columns
  const open = ({ i, j, barred }) => !barred && holder(j) !== i && (holder(j) < m || dear(j));
  // Each member's ways: the columns that it could take, and who has them.
  const tight = places.filter((place) => open(place) && slackOf(place, slip) === 0n);
  const ways = upTo(m, (i) => tight.filter((place) => place.i === i).map(({ j }) => ({ column: j, next: holder(j) })));
  ways.push(columns.map((column, next) => ({ column, next })).filter(({ column }) => dear(column)));
  // Who has no way to one that is left falls out, until all that are left have one: going on, they come round.
  let left = upTo(m + 1, (member) => member);
  const way = (member) => ways[member].find(({ next }) => left.includes(next));
  while (!left.every(way)) left = left.filter(way);
  if (left.length === 0) return null;
  const path = [left[0]];
  while (!path.includes(way(path.at(-1)).next)) path.push(way(path.at(-1)).next);
  const round = path.slice(path.indexOf(way(path.at(-1)).next));
  return columns.map((j, i) => (round.includes(i) ? way(i).column : j));
}

// The program's line, and the answer in a sentence or two.
export const lineOf = ({ refusal, night, slip }) =>
  refusal ? `refused ${refusal.number} place ${refusal.place}` : `accepted ${night.n} total ${slip.total}`;

export function answerOf({ refusal, night, slip }) {
  if (refusal) return `Not shown. ${refusal.words}`;
  const { m, n } = night;
  const paired = `${many(m, "row")} ${m === 1 ? "is" : "are"} paired with ${m < n ? `${m} of ` : ""}`;
  const rival = night.edition === 2 ? "pairing without a barred place" : "pairing";
  const yes = `Yes. ${paired}${many(n, "column")} at a total of ${spoken(slip.total)}. No ${rival} costs less`;
  const other = another(night, slip);
  if (!other) return `${yes}, and no other costs the same.`;
  const moved = upTo(m, (i) => i).filter((i) => other[i] !== slip.columns[i]);
  const swap = moved.length === 2 && moved.every((i) => slip.columns.includes(other[i]));
  const moves = moved.map((i) => `row ${i} could have column ${other[i]}`);
  if (moves.length > 6) moves.splice(5, moves.length, `${moves.length - 5} rows more could change`);
  return `${yes}. Another costs the same: ${swap ? `rows ${listed(moved)} could be swapped` : listed(moves)}.`;
}

// In a page, the script that shows it takes it from here.
if (globalThis.document) globalThis.check = { audit, another, lineOf, answerOf, slackOf, sparesOf, spoken, many };

// As a command. A file is read to one byte more than the longest sheet: enough to see that it is too long.
if (globalThis.process?.argv?.[1]?.endsWith("check.mjs")) {
  const { openSync, readSync } = await import("node:fs");
  const read = (name) => {
    const [file, room] = [openSync(name), new Uint8Array(LONGEST_SHEET + 1)];
    let [length, got] = [0, 0];
    do length += got = readSync(file, room, length, room.length - length); while (got > 0);
    return room.slice(0, length);
  };
  try {
    if (process.argv.length !== 4) throw Error("two file names are wanted");
    const [sheet, slip] = process.argv.slice(2).map(read);
    const found = audit(sheet, slip);
    const lines = found.passed.map(({ number, words }) => `${number}: ${words}`);
    console.log([lineOf(found), ...lines, answerOf(found)].join("\n"));
    process.exitCode = found.refusal ? 1 : 0;
  } catch (failure) {
    console.error(`node check.mjs SHEET SLIP: ${failure.message}`);
    process.exitCode = 2;
  }
}
