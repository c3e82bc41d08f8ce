// Makes docs/page.png, the picture of README: the head of the page of LevelDB and its first failure, up to its run hit by hit, from
// the files in leveldb/.
//     node viewer/test/picture.js [FILE]
import { writeFileSync } from "node:fs";
import { join } from "node:path";
import { Browser, findChromium } from "./chromium.js";
import { TOP, explainedReport, inFolder, keptAppendix, keptBrief, tool } from "./reports.js";

const WIDTH = 1280;
const BELOW = 6;

/** @param {Browser} browser @param {string} into */
async function take(browser, into) {
  const page = inFolder((folder) => {
    writeFileSync(join(folder, "report.json"), explainedReport("leveldb"));
    writeFileSync(join(folder, "brief"), keptBrief("leveldb"));
    writeFileSync(join(folder, "told.json"), keptAppendix("leveldb"));
    return tool("tools/frame", ["--with", ...["report.json", "brief", "told.json"].map((name) => join(folder, name))]);
  });
  const file = join(browser.folder, "page.html");
  writeFileSync(file, page);
  await browser.open(file, { width: WIDTH });
  const bottom = await browser.evaluate("document.querySelector('.finding .story').getBoundingClientRect().bottom + scrollY");
  await browser.screenshot(into, { x: 0, y: 0, width: WIDTH, height: Math.ceil(bottom) + BELOW, scale: 1 });
}

const program = findChromium();
if (program === null) {
  process.stderr.write("picture.js: Chromium isn't installed\n");
  process.exitCode = 2;
} else {
  const browser = new Browser(program);
  try {
    await take(browser, process.argv[2] ?? join(TOP, "docs", "page.png"));
  } finally {
    await browser.close();
  }
}
