// The picture of a night: a grid of its places, slack as shade, with marks that need no colour. It decides nothing.
const { slackOf, spoken, many } = globalThis.check;

const INK = "#1b1b19";
const RED = "#8e2a1c";
const SHADES = ["#b3aea2", "#cdc9bf", "#e2dfd8", "#f2f0eb"]; // the nearest first
const ORDER = ["paired", "other", "tie", "shade", "barred", "barred-pair", "over"];

const upTo = (count) => Array.from({ length: count }, (_, k) => k);

// An element with its attributes and children. What comes from the bytes is put in as text, never as markup.
function made(element, attributes, children) {
  for (const [name, value] of Object.entries(attributes)) element.setAttribute(name, value);
  element.append(...children);
  return element;
}
const svg = (tag, attributes, ...children) =>
  made(document.createElementNS("http://www.w3.org/2000/svg", tag), attributes, children);

// The kinds of places, each with its mark and words. Slacks above 0 are drawn in four shades, with about as many places
// in each; equal slacks have the shade of the first of them.
function kindsOf({ night, slip }, other) {
  const kinds = new Map();
  const add = (mark, words, place, shade) => {
    if (!kinds.has(words)) kinds.set(words, { mark, words, shade, places: [] });
    kinds.get(words).places.push(place);
  };
  const above = [];
  for (const place of night.places) {
    const [paired, slack] = [slip.columns[place.i] === place.j, slackOf(place, slip)];
    if (paired && place.barred) add("barred-pair", "a pair, though barred", place);
    else if (paired) add("paired", "a pair", place);
    else if (place.barred) add("barred", "barred", place);
    else if (slack < 0n) add("over", "prices over the cost", place);
    else if (slack > 0n) above.push({ place, slack });
    else if (other?.[place.i] === place.j) add("other", "in the other pairing that costs the same", place);
    else add("tie", "slack 0, no pair (it need not lead to another pairing)", place);
  }
  above.sort((a, b) => (a.slack < b.slack ? -1 : a.slack > b.slack ? 1 : 0));
  const quarters = SHADES.map(() => []);
  let from = 0;
  for (const [k, one] of above.entries()) {
    if (one.slack !== above[from].slack) from = k;
    quarters[Math.floor((4 * from) / above.length)].push(one);
  }
  for (const [k, quarter] of quarters.entries()) {
    const [low, high] = [quarter[0]?.slack, quarter.at(-1)?.slack];
    const words = low === high ? `slack ${spoken(low)}` : `slack ${spoken(low)} to ${spoken(high)}`;
    for (const { place } of quarter) add("shade", words, place, SHADES[k]);
  }
  return [...kinds.values()].sort((a, b) => ORDER.indexOf(a.mark) - ORDER.indexOf(b.mark));
}

// Places of one kind, ten by ten each, from their left upper corners, with lines so wide. Marks are square where numbers
// stand in them.
function drawn({ mark, shade }, corners, square, line) {
  const lines = (of) => corners.map(([x, y]) => `M${x} ${y}${of}`).join("");
  const path = (of, look) => svg("path", { d: lines(of), fill: "none", ...look });
  const boxes = (fill) => path("h10v10h-10z", { fill });
  const cross = { stroke: RED, "stroke-width": 1.5 * line, opacity: line < 0.5 ? 0.6 : 1 };
  const rings = (inset) => {
    const [size, rx] = [10 - 2 * inset, square ? 2 : 5 - inset];
    const look = { width: size, height: size, rx, fill: "none", stroke: INK, "stroke-width": line };
    return corners.map(([x, y]) => svg("rect", { x: x + inset, y: y + inset, ...look }));
  };
  const marks = {
    paired: () => [boxes(INK)],
    other: () => [boxes("#fff"), ...rings(0.8), ...rings(0.8 + 2.3 * line)],
    tie: () => [boxes("#fff"), ...rings(0.8)],
    shade: () => [boxes(shade)],
    barred: () => [boxes("url(#hatch)")],
    "barred-pair": () => [boxes("url(#hatch)"), path("m1 1l8 8m0 -8l-8 8", cross)],
    over: () => [boxes("#fff"), path("m1 1l8 8m0 -8l-8 8", cross)],
  };
  return marks[mark]();
}

function hatch() {
  const look = { id: "hatch", width: 3, height: 3, patternUnits: "userSpaceOnUse", patternTransform: "rotate(45)" };
  const [white, bar] = [{ width: 3, height: 3, fill: "#fff" }, { width: 1, height: 3, fill: "#55534d" }];
  return svg("defs", {}, svg("pattern", look, svg("rect", white), svg("rect", bar)));
}

// The place that a refusal names.
function namedPlace({ night: { n }, slip, refusal }) {
  if (refusal?.number === 9) return refusal.place;
  return [7, 10, 26].includes(refusal?.number) ? refusal.place * n + slip.columns[refusal.place] : undefined;
}

// The grid; whether numbers stand in it; the kinds of its places, each with a swatch and its count in words; and which
// place an event points at.
function pictureOf(found, other) {
  const { night: { m, n, places }, slip } = found;
  const kinds = kindsOf(found, other);
  // Small nights have their numbers in them: the cost of a place, and its slack below; the prices at the edges.
  const numbers = n <= 8;
  const prices = Math.max(...[...slip.rowPrices, ...slip.columnPrices].map((price) => spoken(price).length));
  const longest = Math.max(prices, ...places.map(({ cost }) => spoken(cost).length));
  const size = Math.min(2.2, 15 / longest); // of a number
  const pixels = numbers ? (longest > 8 ? 84 : 66) : Math.min(30, 640 / (n + 1.5)); // of a place, where there is room
  const label = 115 / pixels; // size of a row's and column's own number
  const left = numbers ? 5 + 0.62 * size * prices : 1.9 * label;
  const top = numbers ? 2.6 * label + size : 1.5 * label;
  const [x, y] = [(j) => left + 10 * j, (i) => top + 10 * i];
  const parts = [hatch()];
  const text = (at, line, words, more) =>
    parts.push(svg("text", { x: at, y: line, "text-anchor": "middle", "font-size": size, ...more }, `${words}`));

  for (const kind of kinds) {
    parts.push(...drawn(kind, kind.places.map(({ i, j }) => [x(j), y(i)]), numbers, numbers ? 0.3 : 0.9));
  }
  const across = upTo(m + 1).map((i) => `M${left} ${y(i)}h${10 * n}`);
  const down = upTo(n + 1).map((j) => `M${x(j)} ${top}v${10 * m}`);
  const lines = { fill: "none", stroke: "#c9c5bb", "stroke-width": 2 / pixels };
  parts.push(svg("path", { d: [...across, ...down].join(""), ...lines }));
  const frame = { fill: "none", stroke: INK, "stroke-width": 10 / pixels };
  parts.push(svg("rect", { x: left, y: top, width: 10 * n, height: 10 * m, ...frame }));
  const named = namedPlace(found);
  if (named !== undefined) {
    const look = { width: 10, height: 10, fill: "none", stroke: RED, "stroke-width": numbers ? 0.8 : 2.5 };
    parts.push(svg("rect", { x: x(named % n), y: y(Math.floor(named / n)), ...look }));
  }

  const step = n > 40 ? 8 : n > 16 ? 4 : 1;
  const bold = { "font-size": label, "font-weight": 600 };
  const end = { "text-anchor": "end" };
  for (const j of upTo(n).filter((j) => j % step === 0)) {
    text(x(j) + 5, numbers ? label : 1.1 * label, j, bold);
    if (numbers) text(x(j) + 5, top - 0.9, spoken(slip.columnPrices[j]));
  }
  for (const i of upTo(m).filter((i) => i % step === 0)) {
    if (numbers) text(0.5, y(i) + 5 + 0.35 * label, i, { ...bold, "text-anchor": "start" });
    else text(left - 0.4 * label, y(i) + 5 + 0.35 * label, i, { ...bold, ...end });
    if (numbers) text(left - 1, y(i) + 5 + 0.35 * size, spoken(slip.rowPrices[i]), end);
  }
  for (const { mark, places: of } of numbers ? kinds : []) {
    for (const place of of.filter(({ barred }) => !barred)) {
      const look = mark === "paired" ? { style: "fill:#fff", "font-weight": 700 } : {};
      text(x(place.j) + 5, y(place.i) + 4.4 + 0.35 * size, spoken(place.cost), look);
      const small = { "font-size": Math.min(1.6, 0.8 * size), "font-weight": 400 };
      text(x(place.j) + 5, y(place.i) + 7.6, spoken(slackOf(place, slip)), { ...look, ...small });
    }
  }

  const border = () => svg("rect", { width: 10, height: 10, fill: "none", stroke: INK, "stroke-width": 0.5 });
  const legend = kinds.map((kind) => ({
    swatch: svg("svg", { viewBox: "-0.5 -0.5 11 11" }, ...drawn(kind, [[0, 0]], numbers, 0.9), border()),
    words: `${kind.words}: ${many(kind.places.length, "place")}`,
  }));
  const spoke = `${many(m, "row")} down, ${many(n, "column")} across. ${legend.map(({ words }) => words).join("; ")}.`;
  const [width, height] = [left + 10 * n + 0.5, top + 10 * m + 0.5];
  const style = `max-width:${Math.ceil((width / 10) * pixels)}px`;
  const grid = svg("svg", { viewBox: `0 0 ${width} ${height}`, role: "img", "aria-label": spoke, style }, ...parts);
  const pointed = (event) => {
    const at = new DOMPoint(event.clientX, event.clientY).matrixTransform(grid.getScreenCTM().inverse());
    return [Math.floor((at.y - top) / 10), Math.floor((at.x - left) / 10)];
  };
  return { grid, numbers, legend, pointed };
}

globalThis.picture = { made, pictureOf };
