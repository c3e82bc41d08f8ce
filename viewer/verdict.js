// What was tried, exactly, and what came of it, in sentences.
import { KEEP } from "./scenario.js";
import { counted, grouped, listed, ordinal, wordsOfKind } from "./words.js";

/** How many plans fail with each code, in the order of the codes. @param {any} campaign @returns {[string, number][]} */
export function failuresByCode({ told, codes }) {
  return codes.map((code) => [code, told.not_passed.filter((item) => item.verdict === "fail" && item.code === code).length]);
}

/** What came of it. @param {any} campaign */
export function headline(campaign) {
  const { counts, clean } = campaign.told;
  const plans = counted(counts.plans, "plan");
  const ended = counts.unresolved === 0 ? "" : `; ${counted(counts.unresolved, "run was", "runs were")} ended without a verdict`;
  if (counts.fail === 0) return `None of ${plans} fails${ended}.`;
  const already = clean.verdict === "fail" ? "The run without faults fails already: " : "";
  return `${already}${grouped(counts.fail)} of ${plans} ${counts.fail === 1 ? "fails" : "fail"}${ended}.`;
}

/**
 * The kinds of faults that were tried at each point where plans grew, in the order in which they were tried.
 * @param {any} campaign
 * @returns {Map<string, string[]>}
 */
function kindsByPoint({ plans, names }) {
  const kinds = names.map(() => new Set());
  for (const { part, fault } of plans) if (part.name === "level" && fault) kinds[fault.point].add(fault.kind.slice("1*".length));
  return new Map(names.map((name, point) => [name, [...kinds[point]]]).filter(([, tried]) => tried.length > 0));
}

/** The points by the kinds that were tried at them, in words, the most common kinds last. @param {Map<string, string[]>} kinds @param {any} campaign */
function pointsByKinds(kinds, { call }) {
  const groups = new Map();
  for (const [point, tried] of kinds) {
    if (point === KEEP) continue;
    const words = listed(tried.map((kind) => wordsOfKind(point, kind)), "or");
    groups.set(words, [...(groups.get(words) ?? []), call(point)]);
  }
  return [...groups].sort((one, other) => one[1].length - other[1].length);
}

/** What a fault is, in words. @param {any} campaign */
function faultsWords(campaign) {
  const kinds = kindsByPoint(campaign);
  const groups = pointsByKinds(kinds, campaign);
  const parts = groups.map(([words, points], index) =>
    `${words} at ${index < groups.length - 1 ? listed(points) : groups.length > 1 ? "each other point that is hit" : "any point that is hit"}`);
  if ((kinds.get(KEEP) ?? []).some((kind) => kind.startsWith("return"))) parts.push("a pending change that the power cut keeps");
  return parts.length > 2 ? `${parts.slice(0, -1).join("; ")}; or ${parts[parts.length - 1]}` : parts.join(", or ");
}

/** @param {any} campaign */
function triedToDepth(campaign) {
  const { growth: { depth, onward }, about } = campaign.told;
  if (about.grown.length <= 1) return ["Tried was the run without faults, and no fault."];
  const faults = depth === 1 ? "at most one fault acts" : `at most ${depth} faults act`;
  const sentences = [`Tried was each behaviour in which ${faults}. A fault is ${faultsWords(campaign)}.`];
  if (onward > 0) sentences.push(`In ${counted(onward, "plan")} more the ${depth === 1 ? "fault" : `last of ${depth} faults`} acts at each later hit of its point too.`);
  return sentences;
}

/** @param {any} campaign */
function triedAtHits({ parts }) {
  const size = (name) => parts.find((part) => part.name === name)?.count ?? 0;
  const hits = size("hits") / 3;
  if (hits === 0) return ["Tried was the run without faults."];
  const sentences = [`Tried was one fault at each of ${counted(hits, "hit")} of the run without faults: a failure, failures from then on, and the end of the program.`];
  if (size("pairs") > 0) sentences.push(`In ${counted(size("pairs"), "plan")} more two of these hits have a fault: both fail, or the program ends at the second.`);
  return sentences;
}

/** What was tried. @param {any} campaign @returns {string[]} */
export function tried(campaign) {
  const size = (name) => campaign.parts.find((part) => part.name === name)?.count ?? 0;
  const sentences = campaign.told.growth ? triedToDepth(campaign) : triedAtHits(campaign);
  if (size("storms") > 0) sentences.push(`${counted(size("storms"), "storm")} ${size("storms") === 1 ? "has" : "have"} faults that were drawn by the seed.`);
  if (size("listed") > 0) sentences.push(`${counted(size("listed"), "scenario")} ${size("listed") === 1 ? "was" : "were"} listed by the settings.`);
  return sentences;
}


/** Whether it is whole, and what of it isn't. @param {any} campaign @returns {{whole: boolean, sentences: string[]}} */
export function wholeness({ told }) {
  const { growth, counts, unmet = 0 } = told;
  const whole = growth !== null && growth.beyond === 0 && counts.unresolved === 0;
  const sentences = [];
  if (growth === null) sentences.push("Without a depth, hits that only a fault leads to, as those of clean-up, got no fault of their own.");
  else if (growth.beyond > 0) sentences.push(`${counted(growth.beyond, "plan with one fault more is", "plans with one fault more are")} left for the next depth.`);
  else if (whole) sentences.push("Whole: no run has a hit left for one fault more, so more such faults show nothing else.");
  if (counts.unresolved > 0) sentences.push(endedWords(counts.unresolved, growth !== null && growth.beyond === 0));
  if (growth?.unseen) sentences.push(`Nobody knows the hits of ${counted(growth.unseen, "ended run")}: nothing grew from there.`);
  if (unmet > 0) sentences.push(`${counted(unmet, "plan passes without meeting each of its", "plans pass without meeting each of their")} faults.`);
  return { whole, sentences };
}

/** What runs mean that were ended. @param {number} ended @param {boolean} wholeElse */
function endedWords(ended, wholeElse) {
  if (!wholeElse) return `Besides, ${counted(ended, "run was", "runs were")} ended: what would have come after that isn\u2019t known.`;
  return `Whole but for ${counted(ended, "run that was", "runs that were")} ended: what would have come after that isn\u2019t tried.`;
}

/** What holds only if something else does, and what is never in it. @param {any} campaign */
export function limits({ told }) {
  const sentences = [];
  if (told.about.told_by === "answers") sentences.push("This rests on recorded runs: it holds of a program that does the same whenever its calls come to the same.");
  sentences.push("No campaign tries other orders of threads, other times, other kinds of faults or other work for the program.");
  return sentences;
}

/** What a part of the list is called. @param {{name: string, level: number|null}} part */
export function partWords({ name, level }) {
  switch (name) {
    case "none": return "no fault";
    case "level": return level === 0 ? "no fault" : counted(level, "fault");
    case "hits": return "1 fault";
    case "pairs": return "2 faults";
    case "onward": return level === 1 ? "1 fault, from then on" : `${level} faults, the last from then on`;
    case "storms": return "storms";
    default: return "listed scenarios";
  }
}

/**
 * What a row of the map is called.
 * @param {{kind: string, point: string|null, hit: number, name: string|null}} row
 * @param {(point: string) => string} call
 */
export function rowWords({ kind, point, hit, name }, call) {
  if (kind === "none") return "no fault";
  if (kind === "wide") return partWords({ name, level: null });
  return `${ordinal(hit)} ${call(point)}`;
}
