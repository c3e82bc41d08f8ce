// The reports that tests look at: those of bundled targets over settings that are drawn, by the program, and made ones.
import { execFileSync, spawnSync } from "node:child_process";
import { mkdtempSync, readFileSync, readdirSync, rmSync } from "node:fs";
import { tmpdir } from "node:os";
import { basename, join } from "node:path";
import { fileURLToPath } from "node:url";
import { campaignOf } from "../document.js";
import { drawn, makeDocument } from "./made.js";

export const TOP = fileURLToPath(new URL("../..", import.meta.url));
const PROGRAM = join(TOP, "dist", "paklour-x86_64-linux");
const TARGETS = ["replace", "maildir", "commit"];
const OF_EACH = 50;
const MADE = 150;

/** A folder for as long as `use` needs it. @template T @param {(folder: string) => T} use @returns {T} */
export function inFolder(use) {
  const folder = mkdtempSync(join(tmpdir(), "viewer-"));
  try {
    return use(folder);
  } finally {
    rmSync(folder, { recursive: true });
  }
}

/** @param {string} name @param {string[]} words @param {object} [options] */
export function tool(name, words, options = {}) {
  return execFileSync("python3", [join(TOP, name), ...words], { encoding: "utf8", maxBuffer: 2 ** 28, ...options });
}

/** What the program writes, whether or not a plan fails. @param {string[]} words @param {object} [options] */
function told(words, options = {}) {
  const done = spawnSync(PROGRAM, words, { encoding: "utf8", maxBuffer: 2 ** 28, ...options });
  if (done.status > 1) throw new Error(done.stderr);
  return done.stdout;
}

/** The scenarios of the plans that settings list, in the order of their numbers. @param {string} path */
function plansBy(path) {
  const lines = told(["plans", path]).trimEnd().split("\n");
  return lines.map((line) => line.split(" ").slice(2).join(" ")).map((text) => (text === "none" ? "" : text));
}

/** What the program tells of settings that are drawn for a target: document, and the texts of its plans. @param {string} target */
function reportsOf(target) {
  return inFolder((cwd) => {
    tool("tests/random_settings.py", [target, "11", String(OF_EACH)], { cwd });
    const paths = readdirSync(cwd).map((name) => join(cwd, name));
    return paths.map((path) => ({ name: `${target} ${basename(path)}`, json: told(["run", "--json", path]), texts: plansBy(path) }));
  });
}

let known = null;

/** Reports of the program, and made ones. `texts` are the scenarios of all plans, told otherwise than by the document. */
export function reports() {
  known ??= [
    ...TARGETS.flatMap(reportsOf),
    ...Array.from({ length: MADE }, (_, seed) => {
      const { document, texts } = makeDocument(drawn(seed));
      return { name: `made ${seed}`, json: JSON.stringify(document), texts };
    }),
  ];
  return known;
}

/**
 * A campaign on a program outside, from answers that are kept: `save`, the program of docs/OUTSIDE.md with its file renamed before the sync, `readme`, that of
 * README.md, and `leveldb`.
 * @param {string} name
 */
function kept(name) {
  const path = (file) => fileURLToPath(new URL(`${name}/${file}`, import.meta.url));
  return { settings: path("settings.toml"), input: readFileSync(path("answers")) };
}

/** The report of a kept campaign, as the program tells it. @param {string} name */
export function keptReport(name) {
  const { settings, input } = kept(name);
  return told(["report", "--json", settings], { input });
}

/** What the loop has added to the page of a kept campaign. @param {string} name */
export function keptAppendix(name) {
  return readFileSync(new URL(`${name}/told.json`, import.meta.url), "utf8");
}

/** The brief report of a kept campaign. @param {string} name */
export function keptBrief(name) {
  const { settings, input } = kept(name);
  return told(["report", "--brief", settings], { input });
}

/** The report of a kept campaign with its runs and those of their parents, as `report --explain` tells each. @param {string} name */
export function explainedReport(name) {
  const { settings, input } = kept(name);
  const document = JSON.parse(keptReport(name));
  const { plans } = campaignOf(document);
  const explain = (scenario) => ({ explained: told(["report", "--explain", scenario === "" ? "none" : scenario, settings], { input }) });
  const runOf = (number, scenario) => {
    const { parent } = plans[number];
    return parent ? { ...explain(scenario), parent: explain(plans[parent].text) } : explain(scenario);
  };
  document.about.clean_run = explain("");
  document.about.finding_runs = document.findings.map(({ number, reduced }) => runOf(number, reduced));
  document.about.cause_runs = (document.growth?.causes ?? []).slice(0, 100).map(({ number, scenario }) => runOf(number, scenario));
  return JSON.stringify(document);
}

/** Settings of examples/, by the program. @param {string} name */
export function exampleReport(name) {
  return told(["run", "--json", join(TOP, "examples", `${name}.toml`)]);
}
