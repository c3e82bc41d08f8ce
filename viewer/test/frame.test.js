import assert from "node:assert/strict";
import { spawnSync } from "node:child_process";
import { createHash } from "node:crypto";
import { cpSync, readFileSync, readdirSync, writeFileSync } from "node:fs";
import { join } from "node:path";
import { test } from "node:test";
import vm from "node:vm";
import { hostileDocument, largestDocument } from "./made.js";
import { TOP, inFolder, reports, tool } from "./reports.js";

const frame = tool("tools/frame", []);

/** The page of a document. */
function pageOf(json, brief) {
  return inFolder((folder) => {
    writeFileSync(join(folder, "report.json"), json);
    writeFileSync(join(folder, "brief"), brief);
    return tool("tools/frame", ["--with", join(folder, "report.json"), join(folder, "brief")]);
  });
}

/** What a page's element with this opening tag holds. */
function within(page, opening, closing) {
  const begin = page.indexOf(opening) + opening.length;
  return page.slice(begin, page.indexOf(closing, begin));
}

const documentIn = (page) => within(page, "<script type=\"application/json\" id=\"document\">", "</script>");

test("the frame has its two places once, and asks for nothing", () => {
  for (const place of ["{{BRIEF}}", "{{DOCUMENT}}"]) assert.equal(frame.split(place).length, 2, place);
  assert.doesNotMatch(frame, /\b(src|href)=|url\(|@import|fetch\(|XMLHttpRequest|WebSocket|https?:\/\/(?!www\.w3\.org\/2000\/svg)/);
  assert.doesNotMatch(frame, /innerHTML|outerHTML|insertAdjacentHTML|document\.write|\beval\b|new Function/);
});

test("its script is a script, and no file of viewer/ is left out", () => {
  const script = within(frame, "<script>", "</script>");
  new vm.Script(script);
  for (const name of readdirSync(join(TOP, "viewer")).filter((file) => file.endsWith(".js"))) {
    const [line] = readFileSync(join(TOP, "viewer", name), "utf8").split("\n");
    assert.ok(script.includes(line), name);
  }
});

test("its policy names the hashes of its style and script", () => {
  const digest = (text) => `'sha256-${createHash("sha256").update(text).digest("base64")}'`;
  const policy = within(frame, "http-equiv=\"Content-Security-Policy\" content=\"", "\">");
  const [style, script] = ["style", "script"].map((tag) => digest(within(frame, `<${tag}>`, `</${tag}>`)));
  assert.equal(policy, `default-src 'none'; style-src ${style}; script-src ${script}; base-uri 'none'; form-action 'none'`);
});

test("--check tells whether the program has this frame, and --write gives it to it", () => {
  inFolder((folder) => {
    const constants = "crates/report_page/src/frame.rt";
    for (const part of ["tools/frame", "viewer", constants]) cpSync(join(TOP, part), join(folder, part), { recursive: true });
    const run = (word) => spawnSync("python3", [join(folder, "tools/frame"), word]).status;
    assert.equal(run("--write"), 0);
    assert.equal(run("--check"), 0);
    const written = readFileSync(join(folder, constants), "utf8");
    assert.equal(written.split(/pub const [A-Z]+: &str = r###"|"###;\n/).filter((_, index) => index % 2 === 1).join(""),
      frame.replace("{{BRIEF}}", "").replace("{{DOCUMENT}}", ""));
    writeFileSync(join(folder, "viewer/style.css"), "p { color: red; }");
    assert.equal(run("--check"), 1);
  });
});

test("each document stands in its page as it is, and the text too", () => {
  for (const { name, json } of [...reports().slice(0, 3), { name: "hostile", json: JSON.stringify(hostileDocument().document) }]) {
    const brief = "first 1 </pre></details><script>pwned()</script> & <b>\n";
    const page = pageOf(json, brief);
    assert.deepEqual(JSON.parse(documentIn(page)), JSON.parse(json), name);
    assert.doesNotMatch(documentIn(page), /[<>&]/, name);
    const text = within(page, "<pre>", "</pre>").replace(/&lt;/g, "<").replace(/&gt;/g, ">").replace(/&amp;/g, "&");
    assert.equal(text, brief, name);
    assert.equal(page.split(/<script/i).length, 3, name);
  }
});

test("the largest campaigns make pages under 8 MB", (context) => {
  for (const depth of [2, 8]) {
    const page = pageOf(JSON.stringify(largestDocument(depth).document, null, 1), "");
    context.diagnostic(`depth ${depth}: ${page.length} bytes`);
    assert.ok(page.length < 8e6);
  }
});
