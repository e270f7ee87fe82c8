// The page in a real browser: pages that the program paper writes are opened, and what each says, read out of its
// elements, is held against the check run here. Other files are dropped onto a page. No request may leave it.
//
//     node browser.mjs --paper COMMAND --browser COMMAND [--look DIRECTORY]
//
// COMMAND of --paper takes `page`, a sheet and a slip. With --look, screenshots and prints of some pages are kept there.
import { strict as assert } from "node:assert";
import { spawn, spawnSync } from "node:child_process";
import { existsSync, mkdirSync, mkdtempSync, readFileSync, readdirSync, rmSync, writeFileSync } from "node:fs";
import { tmpdir } from "node:os";
import { join } from "node:path";
import { createHash } from "node:crypto";
import { fileURLToPath, pathToFileURL } from "node:url";
import { another, audit, lineOf } from "./check.mjs";
import { flipped } from "./damage.mjs";
import { nightOf, randomFrom, randomNight, sheetOf, slipOf, solve } from "./nights.mjs";

const options = {};
for (let k = 2; k < process.argv.length; k += 2) options[process.argv[k].slice(2)] = process.argv[k + 1];
const samples = fileURLToPath(new URL("../samples", import.meta.url));
const directory = mkdtempSync(join(tmpdir(), "page-"));
const random = randomFrom(2);

// A browser that is spoken to over two pipes: commands with a number, answers with the same number, and events.
async function opened() {
  const flags = ["--headless", "--no-sandbox", "--disable-gpu", "--disable-extensions", "--no-first-run"];
  flags.push("--remote-debugging-pipe", `--user-data-dir=${join(directory, "profile")}`);
  const browser = spawn(options.browser, flags, { stdio: ["ignore", "ignore", "ignore", "pipe", "pipe"] });
  const [waiting, events] = [new Map(), []];
  let [number, rest] = [0, ""];
  browser.stdio[4].on("data", (data) => {
    const messages = (rest + data).split("\0");
    rest = messages.pop();
    for (const message of messages.map((text) => JSON.parse(text))) {
      if (message.id === undefined) events.push(message);
      waiting.get(message.id)?.(message);
    }
  });
  browser.on("exit", () => waiting.forEach((answer) => answer({ error: { message: "the browser ended" } })));
  const ask = (method, params = {}, sessionId) =>
    new Promise((resolve, reject) => {
      const answered = ({ error, result }) => (error ? reject(Error(`${method}: ${error.message}`)) : resolve(result));
      waiting.set(++number, answered);
      browser.stdio[3].write(`${JSON.stringify({ id: number, method, params, sessionId })}\0`);
    });
  const { targetId } = await ask("Target.createTarget", { url: "about:blank" });
  const { sessionId } = await ask("Target.attachToTarget", { targetId, flatten: true });
  const page = (method, params) => ask(method, params, sessionId);
  for (const domain of ["Page", "Network", "Runtime", "DOM", "Log"]) await page(`${domain}.enable`);
  await ask("Browser.setDownloadBehavior", { behavior: "allow", downloadPath: directory });
  return { page, events, end: () => browser.kill() };
}

const waitFor = async (what, until) => {
  for (let tries = 0; tries < 500; tries++) {
    const answer = await until();
    if (answer) return answer;
    await new Promise((resolve) => setTimeout(resolve, 10));
  }
  throw Error(`${what}: not after five seconds`);
};

// A night's files, and its page by the program.
let made = 0;
function pageOf(sheet, slip) {
  const [sheetName, slipName, name] = ["sheet", "slip", "html"].map((end) => join(directory, `${made}.${end}`));
  made++;
  writeFileSync(sheetName, sheet);
  writeFileSync(slipName, slip);
  const { status, stdout, stderr } = spawnSync(options.paper, ["page", sheetName, slipName], { maxBuffer: 2 ** 26 });
  assert.equal(status, 0, String(stderr));
  writeFileSync(name, stdout);
  return { sheet, slip, sheetName, slipName, name, size: stdout.length };
}

async function evaluated({ page }, expression) {
  const asked = { expression, returnByValue: true, awaitPromise: true };
  const { result, exceptionDetails } = await page("Runtime.evaluate", asked);
  assert.equal(exceptionDetails, undefined, `${expression}: ${exceptionDetails?.exception?.description}`);
  return result.value;
}

async function open(browser, { name }) {
  const url = pathToFileURL(name).href;
  await browser.page("Page.navigate", { url });
  const shown = `location.href === ${JSON.stringify(url)} && document.documentElement?.dataset.shown === "yes"`;
  await waitFor(name, () => evaluated(browser, shown));
}

// What the page says, out of its elements.
const said = (browser) =>
  evaluated(browser, `(() => {
    const text = (selector) => document.querySelector(selector).textContent;
    const all = (selector) => [...document.querySelectorAll(selector)];
    const texts = (selector) => all(selector).map((element) => element.textContent);
    const seen = (selector) => document.querySelector(selector).checkVisibility();
    return {
      ...document.documentElement.dataset,
      answer: text("#answer"), facts: text("#facts"), note: text("#note q"), digests: texts("#sums code"),
      tests: all("#tests li").map((test) => [...test.children].map((part) => part.textContent)),
      pairs: seen("#pairs") ? texts("#pairs tbody tr td:nth-child(2)") : null, marked: all("#pairs tr.marked").length,
      sum: seen("#sum") ? texts("#sum td") : null, picture: seen("#picture"), foreign: seen("#foreign"),
      wide: document.documentElement.scrollWidth > innerWidth,
    };
  })()`);

function sameAs({ sheet, slip }, page) {
  const found = audit(sheet, slip);
  const { refusal, night } = found;
  assert.equal(page.line, lineOf(found));
  assert.ok(page.facts.endsWith(lineOf(found)), page.facts);
  assert.ok(page.answer.startsWith(refusal ? "Not shown. " : "Yes. "), page.answer);
  assert.equal(page.tests.length, found.passed.length + (refusal ? 1 : 0));
  if (refusal) assert.deepEqual(page.tests.at(-1).slice(0, 2), [`${refusal.number}`, "refused"]);
  assert.equal(page.note, night?.note ?? "");
  const spoken = (number) => Number(number).toLocaleString("en-US");
  assert.deepEqual(page.pairs, found.slip && night.n > 0 ? found.slip.columns.map(spoken) : null);
  if (!refusal) assert.equal(page.sum.at(-1), spoken(found.slip.total));
  assert.equal(page.sum === null, refusal !== null);
  assert.equal(page.picture, Boolean(found.slip && night.m > 0));
  const other = refusal ? null : another(night, found.slip);
  assert.equal(page.also, refusal ? "" : other ? `also ${other.join(" ")}` : "only");
  if (other) assert.equal(page.marked, other.filter((j, i) => j !== found.slip.columns[i]).length);
}

// Sheets and slips for pages: samples, nights of every edition and of both ends of the range, and what is wrong.
function* nights() {
  const solved = (night) => [sheetOf(night), slipOf(night, solve(night))];
  for (const name of readdirSync(samples).filter((name) => name.endsWith(".sheet"))) {
    const sheet = new Uint8Array(readFileSync(join(samples, name)));
    const { night } = audit(sheet, new Uint8Array());
    const solution = night && solve(nightOf(night));
    yield [sheet, solution ? slipOf(night, solution) : new Uint8Array()];
  }
  for (let k = 0; k < 36; k++) {
    const night = randomNight(random, 1 + (k % 3), random.of([3, 8, 16, 64]));
    if (!solve(night)) continue;
    const [sheet, slip] = solved(night);
    yield [sheet, slip];
    yield [sheet, flipped(slip, random.below(8 * slip.length))];
  }
  const markup = [...Buffer.from("</pre></script><script>document.title='no'</script><img src=x>")];
  yield solved({ edition: 1, m: 2, n: 2, costs: [1, 2, 3, 4], bars: [[], []], note: markup });
  yield [Uint8Array.from(markup), Uint8Array.from(markup)];
  yield [new Uint8Array(65537).fill(77), new Uint8Array(65537)];
}

// The largest pages: side 64 of edition 2, with the longest note.
function largest() {
  const [n, note] = [64, Array(4096).fill(35)];
  const upTo = (count, make) => Array.from({ length: count }, (_, k) => make(k));
  const bars = upTo(n, (i) => upTo(n, (j) => j).filter((j) => j !== i && random.below(3) === 0));
  const costs = upTo(n * n, () => random.between(-1_000_000, 1_000_000));
  const night = { edition: 2, m: n, n, costs, bars, note };
  return pageOf(sheetOf(night), slipOf(night, solve(night)));
}

const chosen = async (browser, kind, file) => {
  const { root } = await browser.page("DOM.getDocument");
  const selector = `.drop[data-kind=${kind}] input`;
  const { nodeId } = await browser.page("DOM.querySelector", { nodeId: root.nodeId, selector });
  await browser.page("DOM.setFileInputFiles", { nodeId, files: [file] });
};

// Another sheet and slip, given by the fields and dropped anywhere on the page; and back.
async function exchanged(browser, first, second) {
  await open(browser, first);
  await chosen(browser, "sheet", second.sheetName);
  await waitFor("the sheet", async () => (await said(browser)).foreign);
  await chosen(browser, "slip", second.slipName);
  await waitFor("the slip", async () => (await said(browser)).line === lineOf(audit(second.sheet, second.slip)));
  sameAs(second, await said(browser));
  await evaluated(browser, `document.querySelector("#own").click()`);
  await waitFor("its own", async () => !(await said(browser)).foreign);
  sameAs(first, await said(browser));
  const file = (bytes, name) => `new File([new Uint8Array([${[...bytes]}])], "${name}")`;
  await evaluated(browser, `(() => {
    const files = new DataTransfer();
    files.items.add(${file(second.slip, "b")});
    files.items.add(${file(second.sheet, "a")});
    document.body.dispatchEvent(new DragEvent("drop", { dataTransfer: files, bubbles: true, cancelable: true }));
  })()`);
  await waitFor("the drop", async () => (await said(browser)).line === lineOf(audit(second.sheet, second.slip)));
  sameAs(second, await said(browser));
}

// The page's own bytes, saved from it.
async function saved(browser, page) {
  await open(browser, page);
  for (const kind of ["sheet", "slip"]) {
    const name = join(directory, `night.${kind}`);
    await evaluated(browser, `document.querySelector("#save-${kind}").click()`);
    await waitFor(name, () => existsSync(name) && readFileSync(name).length === page[kind].length);
    assert.ok(readFileSync(name).equals(Buffer.from(page[kind])), name);
  }
}

// A page whose bytes were spoilt refuses them; one that may not run its script says so.
async function spoilt(browser, page) {
  const damaged = { name: join(directory, "damaged.html") };
  writeFileSync(damaged.name, readFileSync(page.name, "utf8").replace('<pre id="sheet-bytes">', "$&!"));
  await open(browser, damaged);
  assert.equal((await said(browser)).line, "refused 11 place 0");
  await browser.page("Emulation.setScriptExecutionDisabled", { value: true });
  await browser.page("Page.navigate", { url: `${pathToFileURL(page.name).href}?unread` });
  const opened = `document.readyState === "complete" && location.search === "?unread"`;
  await waitFor("the page without its script", () => evaluated(browser, opened));
  assert.match(await evaluated(browser, `document.querySelector("#answer").textContent`), /^Not checked\. /);
  await browser.page("Emulation.setScriptExecutionDisabled", { value: false });
}

async function looked(browser, name, { width = 820, height = 1200 } = {}) {
  if (!options.look) return;
  mkdirSync(options.look, { recursive: true });
  await browser.page("Emulation.setDeviceMetricsOverride", { width, height, deviceScaleFactor: 1, mobile: false });
  const { data: picture } = await browser.page("Page.captureScreenshot", { captureBeyondViewport: true });
  const { data: print } = await browser.page("Page.printToPDF", { printBackground: false, preferCSSPageSize: true });
  writeFileSync(join(options.look, `${name}.png`), Buffer.from(picture, "base64"));
  writeFileSync(join(options.look, `${name}.pdf`), Buffer.from(print, "base64"));
}

const browser = await opened();
try {
  let n8Night;
  for (const [sheet, slip] of nights()) {
    if (Buffer.from(sheet).includes("night N8")) n8Night = [sheet, slip];
    const page = pageOf(sheet, slip);
    await open(browser, page);
    sameAs({ sheet, slip }, await said(browser));
  }
  // Sums as the command sha256sum would give them.
  const big = largest();
  assert.ok(big.size < 300_000, `a page of ${big.size} bytes`);
  const before = performance.now();
  await open(browser, big);
  const elapsed = Math.ceil(performance.now() - before);
  const shown = await said(browser);
  assert.ok(elapsed < 1000 && Number(shown.milliseconds) < 1000, `opened and checked in ${elapsed} ms`);
  sameAs(big, shown);
  assert.deepEqual(shown.digests, [big.sheet, big.slip].map((bytes) => createHash("sha256").update(bytes).digest("hex")));
  await looked(browser, "largest");
  const n8 = pageOf(...n8Night);
  await exchanged(browser, n8, big);
  await saved(browser, n8);
  await spoilt(browser, n8);
  await open(browser, n8);
  await looked(browser, "n8");
  // From a telephone to a sheet of paper, nothing sticks out at the side.
  for (const width of [320, 768]) {
    await browser.page("Emulation.setDeviceMetricsOverride", { width, height: 800, deviceScaleFactor: 1, mobile: true });
    for (const page of [n8, big]) {
      await open(browser, page);
      assert.equal((await said(browser)).wide, false, `${width} pixels`);
      await looked(browser, `narrow-${width}`, { width });
    }
  }
  // The pages themselves, and the bytes that a page saves, are all that was ever asked for.
  const requests = browser.events.filter(({ method }) => method === "Network.requestWillBeSent");
  const known = [pathToFileURL(directory).href, "blob:null/"];
  const outside = ({ params: { request } }) => !known.some((start) => request.url.startsWith(start));
  assert.ok(requests.length > made);
  assert.deepEqual(requests.filter(outside), []);
  const complaints = ["Runtime.exceptionThrown", "Log.entryAdded"];
  assert.deepEqual(browser.events.filter(({ method }) => complaints.includes(method)), []);
  const times = `${elapsed} ms, of which its check and drawing took ${shown.milliseconds}`;
  console.log(`page: ${made} pages opened; the largest, of ${big.size} bytes, is open and checked after ${times}`);
} finally {
  browser.end();
  await new Promise((resolve) => setTimeout(resolve, 200));
  rmSync(directory, { recursive: true, force: true, maxRetries: 5 });
}
