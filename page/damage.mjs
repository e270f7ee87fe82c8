// Damage for the tests: sheets and slips with something wrong. None of it is part of the page.
import { bytesOf, costLimit, sheetOf, slipOf, solve } from "./nights.mjs";

export const flipped = (bytes, bit) => bytes.map((byte, k) => (k === bit >> 3 ? byte ^ (1 << (bit & 7)) : byte));
export const joined = (...parts) => Uint8Array.from(parts.flatMap((part) => [...part]));
const upTo = (count) => Array.from({ length: count }, (_, k) => k);
const replaced = (bytes, at, by) => bytes.map((byte, k) => (k >= at && k < at + by.length ? by[k - at] : byte));

// A sheet and a slip with something wrong, or nothing; what is wrong is taken at random, from the night's numbers and
// from the bytes.
export function damaged(random, night, solution, otherSlip) {
  const { edition, m, n } = night;
  const limit = costLimit(edition);
  const changed = structuredClone(night);
  const copied = structuredClone(solution);
  const [row, column, cell] = [random.below(m || 1), random.below(n || 1), random.below(m * n || 1)];
  const limits = [10n ** 10n, 10n ** 10n + 1n, -(10n ** 10n) - 1n];
  const far = () => random.of([...limits, 2n ** 63n - 1n, -(2n ** 63n), -(2n ** 62n)]);
  const step = () => BigInt(random.of([-1, 1, 1, 5, -1000]));
  const around = (price) => BigInt(price) + BigInt(random.of([-4, -1, -1, 0, 1, 9]));
  const list = random.of([copied.rowPrices, copied.columnPrices]);
  const at = random.below(list.length || 1);
  const numbers = [
    () => m && (copied.columns[row] = random.of([n, n - 1, column, 65535])),
    () => m && (copied.columns[row] = copied.columns[random.below(m)]),
    () => m && ([copied.columns[0], copied.columns[row]] = [copied.columns[row], copied.columns[0]]),
    () => list.length && (list[at] = far()),
    () => list.length && (list[at] = BigInt(list[at]) + step()),
    () => upTo(n).forEach((j) => copied.columns.includes(j) || (copied.columnPrices[j] = around(copied.columnPrices[j]))),
    () => edition === 3 && n && (copied.columnPrices[column] = around(copied.columnPrices[column])),
    () => (copied.columns = solve(changed)?.columns ?? copied.columns),
    () => (copied.total = BigInt(copied.total) + step()),
    () => m * n && (changed.costs[cell] = random.of([limit, limit + 1, -limit - 1, 2 ** 31 - 1, -(2 ** 31)])),
    () => m * n && (changed.costs[cell] += random.of([-1, 1])),
    () => edition === 2 && m && changed.bars[row].push(random.of([copied.columns[row], column, 63, n])),
    () => (changed.note = Array(random.of([3, 4095, 4096, 4097, 5000])).fill(random.of([32, 126, 65]))),
    () => (changed.note = [65, 66, random.of([31, 127, 10, 0, 255]), 67]),
    () => 0,
  ];
  for (let k = random.of([0, 1, 1, 1, 2]); k > 0; k--) random.of(numbers)();
  changed.bars = changed.bars.map((row) => [...new Set(row)].filter((j) => j < 64));
  let [sheet, slip] = [sheetOf(changed), slipOf(changed, copied)];
  const field = (of, back, width, number) => replaced(of, of.length - back, bytesOf(width, number));
  const bytes = [
    (of) => flipped(of, random.below(8 * of.length)),
    (of) => field(of, 12, 4, random.of([random.below(99), -1])),
    (of) => field(of, 8, 2, random.of([n + 1, n - 1, 64, 65, 0])),
    (of) => field(of, 6, 2, random.of([0, 1, 2, 3, 4, 257])),
    (of) => field(of, 14, 2, random.of([m + 1, n + 1, 0, 65535])),
    (of) => of.slice(random.below(of.length)),
    (of) => of.slice(0, of.length - random.below(of.length)),
    (of) => joined(of, [random.below(256)]),
    (of) => joined([random.below(256)], of),
    (of) => Uint8Array.from({ length: random.below(40) }, () => random.below(256)),
  ];
  if (random.below(3) === 0) slip = random.of(bytes)(slip);
  if (random.below(6) === 0) slip = otherSlip;
  if (random.below(4) === 0) sheet = random.of(bytes)(sheet);
  const length = random.of([65536, 65537, 70000]);
  if (random.below(300) === 0) sheet = joined(new Uint8Array(length - sheet.length).fill(32), sheet);
  return [sheet, slip];
}
