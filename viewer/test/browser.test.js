// The page in a real browser, where Chromium is installed; elsewhere these tests are skipped, which says nothing.
import assert from "node:assert/strict";
import { mkdtempSync, rmSync, writeFileSync } from "node:fs";
import { tmpdir } from "node:os";
import { join } from "node:path";
import { after, before, describe, test } from "node:test";
import { shown } from "../words.js";
import { Browser, findChromium } from "./chromium.js";
import { drawn, hostileDocument, largestDocument, makeDocument } from "./made.js";
import { exampleReport, explainedReport, keptAppendix, keptReport, tool } from "./reports.js";

const program = findChromium();
/** The width of A4 between Chromium's margins, in pixels of style sheets. */
const PRINTED = 717;
const TAGS = `A ARTICLE B BODY BUTTON CODE DETAILS DIV FORM H1 H2 H3 HEAD HEADER HTML INPUT LABEL LI MAIN META NAV OL OPTION P PATH PRE SCRIPT SECTION SELECT
  SPAN STYLE SUMMARY SVG TABLE TBODY TD TH THEAD TITLE TR UL`;
const ATTRIBUTES = `aria-activedescendant aria-colcount aria-colindex aria-describedby aria-expanded aria-hidden aria-label aria-labelledby aria-live
  aria-rowcount aria-rowindex aria-selected autocomplete charset class colspan content d data-band data-strip for height hidden href http-equiv id lang name
  open role scope style tabindex title type value viewBox width`;

describe("in Chromium", { skip: program === null ? "Chromium isn't installed, so nothing is said of the page in a browser" : false }, () => {
  let browser;
  let folder;

  before(() => {
    folder = mkdtempSync(join(tmpdir(), "viewer-"));
    browser = new Browser(program);
  });
  after(async () => {
    await browser.close();
    rmSync(folder, { recursive: true });
  });

  /** Opens the page of a document, with what the loop adds to it, if that is given. */
  async function open(document, { told = null, ...options } = {}, brief = "first none\n") {
    const texts = { "report.json": JSON.stringify(document), brief, ...(told && { "told.json": JSON.stringify(told) }) };
    for (const [name, text] of Object.entries(texts)) writeFileSync(join(folder, name), text);
    writeFileSync(join(folder, "page.html"), tool("tools/frame", ["--with", ...Object.keys(texts).map((name) => join(folder, name))]));
    await browser.open(join(folder, "page.html"), options);
  }

  const side = (selector, name) => browser.evaluate(`document.querySelector("${selector}").getBoundingClientRect().${name}`);
  /** How far the map's strips go. */
  const widest = async () => await side(".map-strips", "right") - await side(".map-box", "left");
  const saved = () => JSON.parse(keptReport("save"));
  const textOf = (selector) => browser.evaluate(`document.querySelector(${JSON.stringify(selector)}).textContent`);
  const medium = () => makeDocument({ ...drawn(4), depth: 3, most: 900, longest: 9 }).document;

  test("no name becomes an element, an attribute or a script, and nothing is asked for", async () => {
    const { document } = hostileDocument();
    await open(document, {}, `${document.label}\n</pre></details><img src=x onerror=pwned()>`);
    await browser.evaluate("document.querySelectorAll('details').forEach((one) => { one.open = true; }); new Promise((resolve) => setTimeout(resolve, 50))");
    await browser.evaluate("document.querySelectorAll('button.more').forEach((one) => one.click())");
    await browser.evaluate("location.hash = '#plan-5'; new Promise((resolve) => setTimeout(resolve, 50))");
    const found = await browser.evaluate(`(() => {
      const all = [...document.querySelectorAll("*")];
      return {
        tags: [...new Set(all.map((one) => one.tagName.toUpperCase()))], attributes: [...new Set(all.flatMap((one) => one.getAttributeNames()))],
        scripts: document.scripts.length, links: [...document.querySelectorAll("a")].map((one) => one.getAttribute("href")), pwned: typeof pwned,
        hidden: all.flatMap((one) => [...one.attributes].map((attribute) => attribute.value)).filter((value) => /[\\u0000-\\u001f\\u202e\\u2066]/.test(value)),
        width: document.documentElement.scrollWidth, text: document.body.textContent, title: document.title, label: document.querySelector("h1").textContent,
      };
    })()`);
    assert.deepEqual(found.tags.filter((tag) => !TAGS.split(/\s+/).includes(tag)), []);
    assert.deepEqual(found.attributes.filter((name) => !ATTRIBUTES.split(/\s+/).includes(name)), []);
    assert.equal(found.scripts, 2);
    assert.deepEqual(found.hidden, []);
    assert.ok(found.width <= 1280, `the page is ${found.width} wide`);
    assert.equal(found.pwned, "undefined");
    assert.deepEqual(found.links.filter((link) => !/^#(plan-\d+|first|causes|map|points|plans|again)$/.test(link)), []);
    assert.equal(found.label, shown(document.label));
    assert.equal(found.title, shown(`${document.label} \u2013 Paklour`).replace(/\s+/g, " ").trim());
    for (const code of document.findings.map((finding) => finding.code)) assert.ok(found.text.includes(shown(code)), code);
    const asked = browser.events.filter((event) => event.method === "Network.requestWillBeSent").map((event) => event.params.request.url);
    assert.equal(asked.length, 1, asked.join(" "));
  });

  test("each plan is told where the pointer is on its mark, and nowhere else", async () => {
    for (const [document, width] of [[saved(), 1280], [medium(), 1280], [medium(), 390]]) {
      await open(document, { width });
      const found = await browser.evaluate(`(() => {
        const told = [];
        const box = document.querySelector(".map-box").getBoundingClientRect();
        for (const strip of document.querySelectorAll(".strip[data-band]")) {
          const { left, top } = strip.getBoundingClientRect();
          const picture = strip.querySelector("svg").getBoundingClientRect();
          const cell = Number(document.getElementById("cell-size").value);
          for (let y = top + cell / 2; y < picture.bottom; y += cell) for (let x = left + cell / 2; x < picture.right; x += cell) {
            strip.dispatchEvent(new PointerEvent("pointermove", { clientX: x, clientY: y, bubbles: true }));
            const text = document.querySelector(".pointed").textContent;
            if (text.startsWith("plan ")) told.push([parseInt(text.slice(5), 10), x, y, x > box.left]);
          }
        }
        return told;
      })()`);
      assert.deepEqual(await browser.evaluate(`[...document.querySelectorAll(".strip[aria-colindex]")].filter((strip) => {
        const head = document.querySelectorAll(".map-column")[strip.getAttribute("aria-colindex") - 2].getBoundingClientRect();
        return Math.abs(head.left - strip.getBoundingClientRect().left) > 1;
      }).length`), 0, "strips that don't stand below their column's head");
      const numbers = found.map(([number]) => number).sort((one, other) => one - other);
      assert.deepEqual(numbers, Array.from({ length: document.counts.plans }, (_, number) => number));
      assert.equal(new Set(found.map(([, x, y]) => `${x} ${y}`)).size, document.counts.plans);
      assert.ok(found.every(([, , , inside]) => inside));
    }
  });

  test("keys lead to the map, through it, and open a plan", async () => {
    await open(saved());
    for (let presses = 0; presses < 60 && await browser.evaluate("document.activeElement?.className") !== "map"; presses += 1) await browser.press("Tab");
    const current = () => browser.evaluate(`(() => {
      const name = document.querySelector(".map").getAttribute("aria-activedescendant");
      return document.getElementById(name).getAttribute("aria-label");
    })()`);
    assert.match(await current(), /^plan 19, fail torn: the 1st fsync fails; the power cut keeps the 1st change asked for$/);
    await browser.press("ArrowRight");
    assert.match(await current(), /^plan 20, pass: /);
    await browser.press("Enter");
    assert.equal(await browser.evaluate("document.querySelector('#chosen h3').textContent"), "Plan 20 pass");
    assert.equal(await browser.evaluate("location.hash"), "#plan-20");
    await browser.press("ArrowLeft");
    await browser.press("Enter");
    assert.match(await browser.evaluate("document.querySelector('#chosen').textContent"), /It grew from plan \d+\..*paklour report --explain/);
  });

  test("a click chooses the plan that it points at, and a link leads to its plan, again too", async () => {
    const document = makeDocument({ ...drawn(4), depth: 6, most: 8000, longest: 12 }).document;
    await open(document);
    const place = await browser.evaluate(`(() => {
      const map = document.querySelector(".map");
      map.scrollIntoView({ block: "center" });
      map.scrollTop = map.scrollHeight;
      const { bottom } = map.getBoundingClientRect();
      const strip = [...document.querySelectorAll(".strip[data-band]")].filter((one) => one.getBoundingClientRect().top < bottom - 20).pop();
      const { left, top } = strip.getBoundingClientRect();
      strip.dispatchEvent(new PointerEvent("pointermove", { clientX: left + 5, clientY: top + 5, bubbles: true }));
      return { x: left + 5, y: top + 5, scrolled: map.scrollTop, plan: parseInt(document.querySelector(".pointed").textContent.slice(5), 10) };
    })()`);
    assert.ok(place.scrolled > 100, "the map doesn't scroll, so this says little");
    await browser.click(place);
    const chosen = () => browser.evaluate("parseInt(document.querySelector('#chosen h3').textContent.slice(5), 10)");
    assert.equal(await chosen(), place.plan);
    const isSeen = () => browser.evaluate(`(() => {
      const { top, bottom } = document.getElementById("chosen").getBoundingClientRect();
      return bottom > 0 && top < innerHeight;
    })()`);
    for (let clicks = 0; clicks < 2; clicks += 1) {
      await browser.evaluate("scrollTo(0, 0); document.querySelector('.finding h3 a').click(); new Promise((resolve) => setTimeout(resolve, 50))");
      assert.equal(await chosen(), document.findings[0].number);
      assert.equal(await isSeen(), true);
    }
  });

  test("a column closes and opens by its head", async () => {
    const document = medium();
    await open(document);
    const sum = (selector, count) => browser.evaluate(`[...document.querySelectorAll("${selector}")].reduce((sum, one) => sum + ${count}, 0)`);
    const marks = () => sum(".strip[data-band]", "parseInt(one.getAttribute('aria-label'), 10)");
    const press = async () => {
      await browser.evaluate("document.querySelectorAll('.map-column button')[2].focus()");
      await browser.press("Enter");
      return browser.evaluate("document.activeElement.getAttribute('aria-expanded')");
    };
    assert.equal(await marks(), document.counts.plans);
    assert.equal(await press(), "false");
    assert.equal(await marks(), document.counts.plans - document.growth.levels[2]);
    assert.equal(await sum(".strip .closed", "Number(one.textContent)"), document.growth.levels[2]);
    assert.equal(await press(), "true");
    assert.equal(await marks(), document.counts.plans);
  });

  test("the filters show what they say", async () => {
    const document = medium();
    await open(document);
    const set = (id, value) => browser.evaluate(`(() => {
      const input = document.getElementById("${id}");
      input.value = "${value}";
      input.dispatchEvent(new Event("input"));
    })()`);
    const status = () => browser.evaluate("document.querySelector('#plans [role=status]').textContent");
    assert.equal(await status(), `${document.counts.fail} plan${document.counts.fail === 1 ? "" : "s"} of ${document.counts.plans}`);
    await set("by-verdict", "");
    await set("by-level", "1");
    assert.equal(await status(), `${document.growth.levels[1]} plans of ${document.counts.plans}`);
    await set("by-text", "no such text");
    assert.equal(await status(), `0 plans of ${document.counts.plans}`);
  });

  test("at 390 pixels, and printed, nothing is wider than the page; light and dark differ", async () => {
    const grounds = [];
    const deep = makeDocument({ ...drawn(4), depth: 8, most: 30000, longest: 12 }).document;
    for (const dark of [false, true]) {
      await open(deep, { width: 390, dark });
      assert.ok(await browser.evaluate("document.documentElement.scrollWidth") <= 390);
      grounds.push(await browser.evaluate("getComputedStyle(document.body).backgroundColor"));
    }
    assert.notEqual(grounds[0], grounds[1]);
    await open(deep);
    const before = await widest();
    await browser.evaluate("dispatchEvent(new Event('beforeprint'))");
    assert.ok(await widest() <= PRINTED, `${await widest()} of ${PRINTED}`);
    await browser.evaluate("dispatchEvent(new Event('afterprint'))");
    assert.equal(await widest(), before);
  });

  /** The rows of the first run that is shown, and which of them are marked. */
  const rows = () => browser.evaluate(`[...document.querySelectorAll(".finding details[open] tr")].map((row) =>
    [...row.cells].map((cell) => cell.textContent).join("|") + (row.className ? " " + row.className : ""))`);

  test("the first failure stands hit by hit beside the run without its last fault, and the page tells how it is made again", async () => {
    const document = JSON.parse(exampleReport("replace_rename_first"));
    await open(document);
    assert.deepEqual(await rows(), [
      "hit|this run|hit|the run without its last fault", "1|1st create|1|1st create same", "2|1st write|2|1st write same", "3|2nd write|3|2nd write same",
      "4|1st rename|4|1st rename same", "5|1st sync fails|5|1st sync fails fault-line",
      ...["6|1st", "7|2nd", "8|3rd"].map((hit) => `${hit} change asked for isn\u2019t kept|${hit} change asked for isn\u2019t kept same`),
      "9|4th change asked for is kept|9|4th change asked for isn\u2019t kept fault-line", "|fail torn||pass ends"]);
    const again = await browser.evaluate("document.getElementById('again').textContent");
    const { program_version: version, command, settings } = document.about;
    for (const text of [`paklour ${version}`, command, settings.trim()]) assert.ok(again.includes(text), text);
  });

  test("what answers tell of runs is shown as that of targets, with files, and beside the parent's run", async () => {
    await open(JSON.parse(explainedReport("leveldb")));
    const told = await rows();
    for (const row of ["12|1st open of db/000003.log fails|12|1st open of db/000003.log fault-line", "29|1st unlink of db/000003.log|37|1st unlink of db/000003.log same"]) {
      assert.ok(told.includes(row), told.join("\n"));
    }
    assert.equal(await browser.evaluate("document.querySelector('.finding .words').textContent"), "The 1st open of db/000003.log fails.");
    assert.match(await browser.evaluate("document.querySelector('.finding').textContent"), /In bold: hits of the same file as the fault\u2019s, db\/000003\.log\./);
    await open(JSON.parse(explainedReport("save")));
    assert.deepEqual((await rows()).slice(4), [
      "4|1st rename|4|1st rename same", "5|1st fsync fails|5|1st fsync fails fault-line",
      "6|1st change asked for is kept|6|1st change asked for isn\u2019t kept fault-line",
      "7|2nd change asked for isn\u2019t kept|7|2nd change asked for isn\u2019t kept same", "|fail torn||pass ends"]);
    await browser.evaluate("document.querySelector('.causes details').open = true; new Promise((resolve) => setTimeout(resolve, 50))");
    assert.match(await browser.evaluate("document.querySelector('.causes table').textContent"), /the run without its last fault/);
  });

  const readme = (told) => open(JSON.parse(explainedReport("readme")), { told: { ...JSON.parse(keptAppendix("readme")), ...told } });

  test("a finding has what the terminal has: words, files, promises, the judge's lines and the command", async () => {
    await readme();
    const { title, date, stories: [story] } = JSON.parse(keptAppendix("readme"));
    assert.equal(await textOf("h1"), title);
    assert.equal(await browser.evaluate("document.title"), `save.py \u2013 ${date} \u2013 Paklour`);
    assert.equal(`fail torn: ${await textOf(".finding .words")}`.toLowerCase(), `${story.words}.`.toLowerCase());
    const cells = (selector) =>
      browser.evaluate(`[...document.querySelectorAll("${selector} tbody tr")].map((row) => [...row.cells].map((cell) => cell.innerText.trim()))`);
    assert.deepEqual(await cells(".finding .files"), [["note", "old\n3 bytes", "empty"]]);
    assert.deepEqual(await cells(".finding .pending"), [["create new", "kept"], ["rename new -> note", "kept"], ["length of note 5", "lost"],
      ["block 0 of note as after write 1", "lost"]]);
    const told = await textOf(".finding .story");
    const sentences = ["The program had promised nothing by then", "says: torn. Its last lines:", "note: it has neither its old nor its new contents", story.again];
    for (const words of sentences) assert.ok(told.includes(words), words);
    assert.deepEqual((await rows()).slice(4), [
      "4|1st rename (note)|4|1st rename (note) same", "5|1st fsync (note) fails|5|1st fsync (note) fault-line",
      "6|1st change asked for (rename new -> note, and all before it) is kept|6|2nd fsync (the data folder)",
      "7|2nd change asked for (create new) is kept||\u2013", "|fail torn||pass ends"]);
    const again = await textOf("#again");
    const items = ["\"$HARNESS\"/../save.py young || exit", "echo done", "campaign bypaklour-loop saving", `date${date}`];
    for (const words of items) assert.ok(again.includes(words), words);
  });

  test("a plan that is chosen has its story if it is a cause, and in any case its command", async () => {
    await readme();
    const choose = (number) => browser.evaluate(`location.hash = "#plan-${number}";
      new Promise((resolve) => setTimeout(() => resolve(document.getElementById("chosen").innerText), 50))`);
    assert.match(await choose(12), /The 1st sys::fsync \(note\) ends the run, the pending changes of names are kept\.[^]*neither its old nor its new contents/);
    const passing = await choose(13);
    assert.match(passing, /This run again: paklour-loop saving --try 'sys::fsync=1\*off->1\*return'/);
    assert.doesNotMatch(passing, /judge/);
    assert.equal(await browser.evaluate("document.querySelectorAll('.causes .story').length"), 2);
  });

  test("sentences of others stand with their finding", async () => {
    const [story, ...others] = JSON.parse(keptAppendix("readme")).stories;
    await readme({ stories: [{ ...story, further: ["On ext4 it is lost too.", "<b>On XFS</b> it isn\u2019t."] }, ...others] });
    assert.deepEqual(await browser.evaluate("[...document.querySelectorAll('.finding .story li')].map((one) => one.textContent)"),
      ["On ext4 it is lost too.", "<b>On XFS</b> it isn\u2019t."]);
  });

  test("a page to which the loop added nothing shows no story, and one without findings no section of them", async () => {
    await open(JSON.parse(explainedReport("readme")));
    assert.equal(await browser.evaluate("document.querySelectorAll('.story').length"), 0);
    assert.match(await textOf("h1"), /^saving, settings by paklour-loop$/);
    const document = JSON.parse(keptReport("readme"));
    const [counts, none] = [{ plans: document.counts.plans, pass: document.counts.plans, fail: 0, unresolved: 0 }, { not_passed: [], findings: [] }];
    const about = { ...document.about, finding_runs: [], cause_runs: [] };
    const passing = { ...document, counts, ...none, about, growth: { ...document.growth, causes: [] } };
    await open(passing, { told: { ...JSON.parse(keptAppendix("readme")), stories: [] } });
    assert.equal(await browser.evaluate("document.querySelectorAll('.story, .finding, #first').length"), 0);
    assert.equal(await textOf("h1"), "save.py");
    assert.match(await textOf(".headline"), /^None of 18 plans fails\.$/);
  });

  test("what the loop adds becomes no element either, and if it can't be read, the report is shown without it", async () => {
    const document = JSON.parse(explainedReport("readme"));
    const text = `${"long".repeat(40)}\u0000\u2028\u202e</script><!--<script>pwned()</script>&amp;\udcff`;
    const good = JSON.parse(keptAppendix("readme"));
    const side = { kind: text, mode: text, length: 1, begin: 3, text, more: 4 };
    const story = {
      ...good.stories[0], scenario: document.findings[0].reduced, verdict: text, words: `${text}: ${text}`, state: text, pending: [{ what: text, kept: text }],
      promised: [text], judge: [text], hits: Array(30).fill(text), again: text, further: [text],
      files: { differences: [{ name: text, before: side, after: side }], more: 1, same: 1, unjudged: 1 },
    };
    const program = { name: text, run: [text, text], version: text, files: [{ name: text, digest: text, changed: text }] };
    await open(document, { width: 390, told: { ...good, title: text, date: text, command: text, sample: text, clean: Array(30).fill(text), program, stories: [story] } });
    const found = await browser.evaluate(`(() => {
      const all = [...document.querySelectorAll("*")];
      return { tags: [...new Set(all.map((one) => one.tagName.toUpperCase()))], attributes: [...new Set(all.flatMap((one) => one.getAttributeNames()))],
        stories: document.querySelectorAll(".finding .story").length, scripts: document.scripts.length, pwned: typeof pwned, width: document.documentElement.scrollWidth };
    })()`);
    assert.deepEqual(found.tags.filter((tag) => !TAGS.split(/\s+/).includes(tag)), []);
    assert.deepEqual(found.attributes.filter((name) => !ATTRIBUTES.split(/\s+/).includes(name)), []);
    assert.deepEqual([found.stories, found.scripts, found.pwned], [1, 3, "undefined"]);
    assert.ok(found.width <= 390, `the page is ${found.width} wide`);
    const sample = "Of the plans with 2 faults, 312 of 90300 were tried as well.";
    await readme({});
    assert.doesNotMatch(await textOf("header"), /were tried as well/);
    await readme({ sample });
    assert.ok((await textOf("header")).includes(sample), "what was drawn beside the plans of the report");
    await readme({ version: 7 });
    assert.match(await textOf("header"), /can\u2019t be read: the appendix has version 7/);
    assert.equal(await textOf(".finding .words"), "The 1st fsync fails.");
  });

  test("a document that can't be read leaves the text open", async () => {
    await open({ version: 3 }, {}, "first 12 lost\n");
    assert.match(await browser.evaluate("document.getElementById('page').textContent"), /This report can\u2019t be shown.*version 3/);
    assert.equal(await browser.evaluate("document.getElementById('brief').open"), true);
  });

  test("without a script the text can be read", async () => {
    await open(saved(), { scripts: false }, "first 12 lost\n");
    const { root } = await browser.send("DOM.getDocument", { depth: -1 });
    const { nodeId } = await browser.send("DOM.querySelector", { nodeId: root.nodeId, selector: "#brief pre" });
    assert.equal((await browser.send("DOM.getOuterHTML", { nodeId })).outerHTML, "<pre>first 12 lost\n</pre>");
    const { model } = await browser.send("DOM.getBoxModel", { nodeId });
    assert.ok(model.height > 20, "the text isn't seen");
    await open(saved());
    assert.equal(await browser.evaluate("document.querySelector('#brief pre').checkVisibility()"), false);
  });

  test("65,536 plans are shown in two seconds, and filtered in a tenth of one, of the page's thread", async (context) => {
    for (const depth of [2, 8]) {
      await open(largestDocument(depth).document);
      const shownAfter = await browser.busy();
      const filtered = [];
      const filters = [["by-verdict", ""], ["by-text", "fsync=1"], ["by-text", "no such text"], ["by-text", ""], ["by-point", "libc::fsync"], ["by-level", "2"]];
      for (const [id, value] of filters) {
        const before = await browser.busy();
        await browser.evaluate(`(async () => {
          const input = document.getElementById("${id}");
          input.value = "${value}";
          input.dispatchEvent(new Event("input"));
          await new Promise((resolve) => requestAnimationFrame(() => setTimeout(resolve)));
        })()`);
        filtered.push(await browser.busy() - before);
      }
      context.diagnostic(`depth ${depth}: shown after ${shownAfter} ms, filtered in ${filtered.join(", ")} ms`);
      assert.ok(shownAfter < 2000, `shown after ${shownAfter} ms`);
      assert.ok(filtered.sort((one, other) => one - other)[3] < 100, `filtered in ${filtered.join(", ")} ms`);
      await browser.evaluate("dispatchEvent(new Event('beforeprint'))");
      assert.ok(await widest() <= PRINTED, `${await widest()} of ${PRINTED}, printed`);
    }
  });
});
