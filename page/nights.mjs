// Nights for the tests: random ones of every edition, their bytes, and a small exact solver that makes their slips. None
// of it is part of the page.

// Numbers that look random and are the same for the same seed.
export function randomFrom(seed) {
  let state = seed >>> 0;
  const next = () => {
    state = (state + 0x6d2b79f5) >>> 0;
    let mixed = Math.imul(state ^ (state >>> 15), state | 1);
    mixed ^= mixed + Math.imul(mixed ^ (mixed >>> 7), mixed | 61);
    return (mixed ^ (mixed >>> 14)) >>> 0;
  };
  const below = (count) => next() % count;
  return { below, between: (low, high) => low + below(high - low + 1), of: (things) => things[below(things.length)] };
}

const upTo = (count, make) => Array.from({ length: count }, (_, k) => make(k));
const K = 1_000_000_000;
export const costLimit = (edition) => (edition === 2 ? 1_000_000 : K);

// The bytes of an unsigned or negative number, lowest first.
export function bytesOf(width, number) {
  const wrapped = BigInt.asUintN(8 * width, BigInt(number));
  return upTo(width, (k) => Number((wrapped >> BigInt(8 * k)) & 255n));
}

const trailer = (distance, side, edition, mark) =>
  [...bytesOf(4, distance), ...bytesOf(2, side), ...bytesOf(2, edition), ...Buffer.from(mark)];

// A night is { edition, m, n, costs (numbers in row order), bars (a list of columns for each row), note (bytes) }.
export function sheetOf({ edition, m, n, costs, bars, note = [] }) {
  const masks = bars.map((columns) => columns.reduce((mask, j) => mask | (1n << BigInt(j)), 0n));
  const more = { 1: [], 2: masks.flatMap((mask) => bytesOf(8, mask)), 3: bytesOf(2, m) }[edition];
  const behind = [...costs.flatMap((cost) => bytesOf(4, cost)), ...more];
  return Uint8Array.from([...note, ...behind, ...trailer(behind.length, n, edition, "MTCH")]);
}

export function slipOf({ edition, m, n }, { columns, rowPrices, columnPrices, total }) {
  const prices = [...rowPrices, ...columnPrices, total].flatMap((number) => bytesOf(8, number));
  const body = [...columns.flatMap((j) => bytesOf(2, j)), ...prices, ...(edition === 3 ? bytesOf(2, m) : [])];
  return Uint8Array.from([...body, ...trailer(body.length, n, edition, "SLIP")]);
}

// The least pairing of a night and prices that show it, by shortest ways from row to row; null where bars leave none.
// The square that is solved has K on barred places and zeros in the rows from m on.
export function solve({ m, n, costs, bars }) {
  const cost = (i, j) => (i >= m ? 0 : bars[i].includes(j) ? K : costs[i * n + j]);
  const [u, v, rowAt] = [Array(n).fill(0), Array(n + 1).fill(0), Array(n + 1).fill(-1)]; // column n: where a row starts
  for (let row = 0; row < n; row++) {
    const [least, before, seen] = [Array(n).fill(Infinity), Array(n).fill(n), new Set()];
    let column = n;
    rowAt[n] = row;
    while (rowAt[column] >= 0) {
      seen.add(column);
      const from = rowAt[column];
      let [step, next] = [Infinity, -1];
      for (let j = 0; j < n; j++) {
        if (seen.has(j)) continue;
        const reduced = cost(from, j) - u[from] - v[j];
        if (reduced < least[j]) [least[j], before[j]] = [reduced, column];
        if (least[j] < step) [step, next] = [least[j], j];
      }
      for (const j of seen) {
        u[rowAt[j]] += step;
        v[j] -= step;
      }
      for (let j = 0; j < n; j++) if (!seen.has(j)) least[j] -= step;
      column = next;
    }
    while (column !== n) {
      rowAt[column] = rowAt[before[column]];
      column = before[column];
    }
  }
  const columns = upTo(m, (i) => rowAt.indexOf(i));
  if (columns.some((j, i) => bars[i].includes(j))) return null;
  const total = columns.reduce((all, j, i) => all + costs[i * n + j], 0);
  return { columns, rowPrices: u.slice(0, m), columnPrices: v.slice(0, n), total };
}

// All pairings of a small night: a list of columns for each.
export function* pairings({ m, n, bars }, columns = []) {
  if (columns.length === m) return yield columns;
  for (let j = 0; j < n; j++) {
    const free = !columns.includes(j) && !bars[columns.length].includes(j);
    if (free) yield* pairings({ m, n, bars }, [...columns, j]);
  }
}

export const totalOf = ({ n, costs }, columns) => columns.reduce((all, j, i) => all + costs[i * n + j], 0);

// A random night of at most this side.
export function randomNight(random, edition, largest) {
  const n = random.below(largest + 1);
  const m = edition === 3 ? random.below(n + 1) : n;
  const limit = costLimit(edition);
  const narrow = [[0, 1], [0, 4], [-3, 3], [0, 99], [-1000, 1000]];
  const [low, high] = random.of([...narrow, [-limit, limit], [limit - 2, limit], [-limit, -limit]]);
  const costs = upTo(m * n, () => random.between(low, high));
  const share = random.of([0, 10, 30, 60]);
  const bars = upTo(m, () => (edition === 2 ? upTo(n, (j) => j).filter(() => random.below(100) < share) : []));
  const note = upTo(random.of([0, 0, 1, 40]), () => random.between(32, 126));
  return { edition, m, n, costs, bars, note };
}

// A night as the check reads it.
export function nightOf({ edition, m, n, places }) {
  const barred = (i) => places.filter((place) => place.i === i && place.barred).map(({ j }) => j);
  return { edition, m, n, costs: places.map(({ cost }) => Number(cost)), bars: upTo(m, barred) };
}
