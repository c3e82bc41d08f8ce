// Plans in words.
import { faultsOf } from "./document.js";
import { clausesOf, parseTerm } from "./scenario.js";
import { quoted, wordsOfClauses, wordsOfScenario } from "./words.js";

/** @typedef {import("./document.js").Plan} Plan */

/** A plan in words. One that grew has its faults in the order of time. @param {any} campaign @param {Plan} plan */
export function planWords(campaign, plan) {
  const { names, call } = campaign;
  if (!plan.fault) return wordsOfScenario(plan.text, call);
  const clauses = faultsOf(campaign, plan).map(({ point, hit, kind }) =>
    ({ point: names[point], term: parseTerm(kind), first: hit, last: kind.startsWith("1*") ? hit : Infinity }));
  return wordsOfClauses(clauses, call, true);
}

/**
 * A scenario that a plan has, or that its own is reduced to.
 * @param {any} campaign
 * @param {number} number
 * @param {string} scenario
 */
export function wordsOfNumbered(campaign, number, scenario) {
  const plan = campaign.plans[number];
  return plan.text === scenario ? planWords(campaign, plan) : wordsOfScenario(scenario, campaign.call);
}

/**
 * Scenarios grouped by the calls that they have a fault at, in the order of the first of each group.
 * @template {{scenario: string}} T
 * @param {T[]} items
 * @returns {{points: string[], items: T[]}[]}
 */
export function groupByCalls(items) {
  const groups = new Map();
  for (const item of items) {
    const points = [...new Set((clausesOf(item.scenario) ?? []).map((clause) => clause.point))];
    const key = JSON.stringify(points);
    if (!groups.has(key)) groups.set(key, { points, items: [] });
    groups.get(key).items.push(item);
  }
  return [...groups.values()];
}

/** The command that tells a plan's run hit by hit. @param {{told_by: string}} about @param {Plan} plan */
export function explainCommand({ told_by: toldBy }, plan) {
  if (toldBy === "target") return `paklour explain --plan ${plan.number} FILE`;
  return `paklour report --explain ${plan.text === "" ? "none" : quoted(plan.text)} FILE < ANSWERS`;
}

/** How many plans grew from one, and how many of these fail. @param {any} campaign @param {number} number */
export function descendantsOf(campaign, number) {
  const among = new Set([number]);
  let fail = 0;
  for (const plan of campaign.plans) {
    if (plan.parent === null || plan.number <= number || !among.has(plan.parent)) continue;
    among.add(plan.number);
    if (plan.verdict === "fail") fail += 1;
  }
  return { plans: among.size - 1, fail };
}
