// Reads the report's document, checks it against what docs/report.schema.json says, and makes of it the campaign that the page shows.
import { rowsOfPlans } from "./grown.js";
import { Runs } from "./run.js";
import { clausesOf, sharesOf, spellWith } from "./scenario.js";
import { callsOf } from "./words.js";

/** @typedef {"pass"|"fail"|"unresolved"} Verdict */
/** @typedef {import("./grown.js").Fault} Fault */
/**
 * A part of the list of plans: `none`, `hits`, `pairs` without a depth; `level`, `onward` with one; `storms`, `listed`.
 * @typedef {{name: string, level: number|null, first: number, count: number}} Part
 */
/**
 * @typedef {{number: number, verdict: Verdict, code: string|null, part: Part, parent: number|null, fault: Fault|null, text: string}} Plan
 */

/** A document that can't be shown, with the first things that are wrong with it. */
export class ReadError extends Error {
  /** @param {string[]} problems */
  constructor(problems) {
    super(problems.slice(0, 5).join("; "));
    this.problems = problems;
  }
}

const VERSION = 1;
const VERDICTS = ["pass", "fail", "unresolved"];

// ---- the checks: each tells what is wrong at a path

/** @typedef {(value: any, path: string) => string[]} Check */

/** @param {string} what @param {(value: any) => boolean} holds @returns {Check} */
const is = (what, holds) => (value, path) => (holds(value) ? [] : [`${path} isn't ${what}`]);
const isCount = (value) => Number.isInteger(value) && value >= 0;
export const count = is("a whole number from 0", isCount);
export const text = is("a text", (value) => typeof value === "string");
const digits = is("a text of digits", (value) => typeof value === "string" && /^(0|[1-9][0-9]*)$/.test(value));
const verdict = is("a verdict", (value) => VERDICTS.includes(value));
export const orNull = (check) => (value, path) => (value === null ? [] : check(value, path));

/** Its items are checked once more where one is wrong: most lists are right, and may be long. @param {Check} check @returns {Check} */
export const list = (check) => (value, path) => {
  if (!Array.isArray(value)) return [`${path} isn't a list`];
  if (value.every((item) => check(item, path).length === 0)) return [];
  return value.flatMap((item, index) => check(item, `${path}[${index}]`));
};

/** @param {Record<string, Check>} needed @param {Record<string, Check>} [optional] @returns {Check} */
export const members = (needed, optional = {}) => (value, path) => {
  if (value === null || typeof value !== "object" || Array.isArray(value)) return [`${path} isn't an object`];
  const lacking = Object.keys(needed).filter((name) => !Object.hasOwn(value, name)).map((name) => `${path}.${name} lacks`);
  const wrong = Object.entries({ ...needed, ...optional })
    .filter(([name]) => Object.hasOwn(value, name))
    .flatMap(([name, check]) => check(value[name], `${path}.${name}`));
  return [...lacking, ...wrong];
};

const points = list(members({ point: text, hits: count }));
const growth = members(
  {
    depth: count, levels: list(count), onward: count, beyond: count, reached: points,
    causes: list(members({ number: count, code: text, scenario: text })),
  },
  { unseen: count },
);
const runAlone = { explained: text };
const run = members(runAlone, { left_out: count, parent: members(runAlone, { left_out: count }) });
const about = members({
  program_version: text, told_by: is("target or answers", (value) => value === "target" || value === "answers"), command: text, settings: text,
  storms: list(text), listed: list(text), grown: list(text), clean_run: orNull(run), finding_runs: list(orNull(run)),
  cause_runs: list(orNull(run)),
});
const report = members(
  {
    label: text, seed: digits, census: points, clean: members({ verdict, code: orNull(text) }),
    counts: members({ plans: count, pass: count, fail: count, unresolved: count }),
    not_passed: list(members({ number: count, verdict, code: orNull(text), scenario: text })),
    findings: list(members({ number: count, code: text, scenario: text, reduced: text, tests: count })),
    growth: orNull(growth), about,
  },
  { unmet: count },
);

/** What holds between members. @param {any} told @returns {string[]} */
function contradictions(told) {
  const { counts, not_passed: notPassed, findings, growth, about } = told;
  const found = [];
  if (counts.pass + counts.fail + counts.unresolved !== counts.plans) found.push("the counts don't add up");
  if (notPassed.length !== counts.fail + counts.unresolved) found.push("not_passed doesn't have as many plans as are counted");
  if ([...notPassed, ...findings, ...(growth?.causes ?? [])].some((item) => item.number >= counts.plans)) found.push("a plan has a number that no plan has");
  const grew = growth ? growth.levels.reduce((sum, size) => sum + size, growth.onward) : 0;
  if (about.grown.length !== grew) found.push("about.grown doesn't have as many plans as grew");
  if (about.finding_runs.length > findings.length) found.push("about.finding_runs has more runs than there are findings");
  if (about.cause_runs.length > (growth?.causes.length ?? 0)) found.push("about.cause_runs has more runs than there are causes");
  const parts = partsOf(told);
  const inParts = parts.reduce((sum, part) => sum + part.count, 0);
  if (inParts !== counts.plans || parts.some((part) => part.count < 0)) found.push("the parts of the list don't add up");
  return found;
}

/**
 * What a JSON text has, checked. A version that this page doesn't know is refused, members that it doesn't know are passed over.
 * @param {string} json @param {number} version @param {Check} check @param {string} name
 */
export function readChecked(json, version, check, name) {
  let told;
  try {
    told = JSON.parse(json);
  } catch (error) {
    throw new ReadError([`this is no JSON: ${error.message}`]);
  }
  if (told === null || typeof told !== "object" || Array.isArray(told)) throw new ReadError([`the ${name} isn't an object`]);
  if (told.version !== version) throw new ReadError([`the ${name} has version ${JSON.stringify(told.version)}, and this page shows version ${version}`]);
  const problems = check(told, name);
  if (problems.length > 0) throw new ReadError(problems);
  return told;
}

/** The document, checked. @param {string} json */
export function readDocument(json) {
  const told = readChecked(json, VERSION, report, "document");
  const found = contradictions(told);
  if (found.length > 0) throw new ReadError(found);
  return told;
}

// ---- the campaign

/**
 * The parts of the list of plans, in the order of their numbers; none is empty but for level 0.
 * @param {any} told
 * @returns {Part[]}
 */
export function partsOf(told) {
  const { growth, counts, census, about: { storms, listed } } = told;
  const sizes = [];
  if (growth) {
    growth.levels.forEach((size, level) => sizes.push(["level", level, size]));
    sizes.push(["onward", growth.depth, growth.onward]);
  } else {
    const hits = 3 * census.reduce((sum, point) => sum + point.hits, 0);
    sizes.push(["none", 0, Math.min(1, counts.plans)], ["hits", 1, Math.min(hits, Math.max(0, counts.plans - 1))]);
    const before = sizes.reduce((sum, [, , size]) => sum + size, 0);
    sizes.push(["pairs", 2, counts.plans - before - storms.length - listed.length]);
  }
  sizes.push(["storms", null, storms.length], ["listed", null, listed.length]);
  return numbered(sizes.filter(([, , size]) => size !== 0));
}

/** @param {[string, number|null, number][]} sizes @returns {Part[]} */
function numbered(sizes) {
  let first = 0;
  return sizes.map(([name, level, count]) => {
    const part = { name, level, first, count };
    first += count;
    return part;
  });
}

/** @param {any} told @param {Part[]} parts @returns {Plan[]} */
function plansOf(told, parts) {
  const rows = rowsOfPlans(told);
  if (rows.length !== told.counts.plans) throw new ReadError(["the plans that are told aren't as many as are counted"]);
  if (rows.includes(null)) throw new ReadError([`about.grown[${rows.indexOf(null)}] isn't a plan that grew`]);
  const plans = [];
  for (const part of parts) {
    for (let number = part.first; number < part.first + part.count; number += 1) {
      const { parent, fault, text } = rows[number];
      plans.push({ number, part, verdict: "pass", code: null, parent, fault, text });
    }
  }
  for (const { number, verdict, code, scenario } of told.not_passed) Object.assign(plans[number], { verdict, code, text: scenario });
  return plans;
}

/** Spells the plans that grew. Those with the same parent follow each other mostly, so its scenario is made once. @param {Plan[]} plans @param {string[]} names */
function spellPlans(plans, names) {
  let [parent, shares] = [-1, []];
  for (const plan of plans) {
    if (plan.text !== null) continue;
    if (plan.parent !== parent) [parent, shares] = [plan.parent, sharesOf(faultsOf({ plans }, plans[plan.parent]), names)];
    plan.text = spellWith(shares, plan.fault, names);
  }
}

/** The runs that a document tells. @param {any} campaign */
function runsOf({ told: { findings, growth, about }, plans, names }) {
  const runs = new Runs(names);
  runs.add(0, "", about.clean_run);
  const add = (number, scenario, run) => {
    const { text, parent } = plans[number];
    runs.add(number, scenario, run, text === scenario && parent !== null ? plans[parent].text : null);
  };
  about.finding_runs.forEach((run, index) => add(findings[index].number, findings[index].reduced, run));
  about.cause_runs.forEach((run, index) => add(growth.causes[index].number, growth.causes[index].scenario, run));
  return runs;
}

/**
 * The campaign that a checked document tells.
 * @param {any} told
 */
export function campaignOf(told) {
  const parts = partsOf(told);
  const plans = plansOf(told, parts);
  const codes = [...new Set(told.findings.map((finding) => finding.code))];
  const reached = told.growth && new Map(told.growth.reached.map((item) => [item.point, item.hits]));
  const names = told.census.map((item) => item.point);
  const campaign = {
    told, parts, plans, codes, names, call: callsOf(names),
    points: told.census.map(({ point, hits }) => ({ point, clean: hits, reached: reached ? reached.get(point) ?? null : null })),
  };
  spellPlans(plans, names);
  return { ...campaign, runs: runsOf(campaign) };
}

/**
 * The faults of a plan that grew from others, in the order of time; none of any other plan.
 * @param {{plans: Plan[]}} campaign
 * @param {Plan} plan
 * @returns {Fault[]}
 */
export function faultsOf(campaign, plan) {
  const faults = [];
  for (let one = plan; one?.fault; one = campaign.plans[one.parent]) faults.push(one.fault);
  return faults.reverse();
}

/** The name of a plan's part, as filters know it. @param {Plan} plan */
export function levelKeyOf(plan) {
  const { name, level } = plan.part;
  return name === "level" || name === "none" || name === "hits" || name === "pairs" ? String(level) : name;
}

/**
 * The plans that a filter lets through; a member that is empty lets all.
 * @param {{plans: Plan[], names: string[]}} campaign
 * @param {{verdict?: string, point?: string, level?: string, text?: string}} filter `verdict` is a verdict, or `fail` and a code behind a blank; `text` stands
 *   in the scenario, small or large, or in the number
 */
export function filterPlans(campaign, { verdict = "", point = "", level = "", text = "" }) {
  const wanted = text.trim().toLowerCase();
  const place = campaign.names.indexOf(point);
  const lowered = wanted === "" ? [] : loweredTexts(campaign);
  return campaign.plans.filter((plan) =>
    (verdict === "" || verdict === plan.verdict || (plan.code !== null && verdict === `${plan.verdict} ${plan.code}`))
    && (level === "" || level === levelKeyOf(plan))
    && (point === "" || hasFaultAt(campaign, plan, point, place))
    && (wanted === "" || lowered[plan.number].includes(wanted) || String(plan.number).includes(wanted)));
}

/** The scenarios of all plans, in small letters. They are made once: a page asks for them before anybody filters. @param {any} campaign @returns {string[]} */
export function loweredTexts(campaign) {
  campaign.lowered ??= campaign.plans.map((plan) => plan.text.toLowerCase());
  return campaign.lowered;
}

/** Whether a plan has a fault at this point. @param {any} campaign @param {Plan} plan @param {string} point @param {number} place */
function hasFaultAt({ plans }, plan, point, place) {
  if (!plan.fault) return (clausesOf(plan.text) ?? []).some((clause) => clause.point === point);
  for (let one = plan; one?.fault; one = plans[one.parent]) if (one.fault.point === place) return true;
  return false;
}
