// The plans of a campaign, from what its document tells of them: with a depth they grew, each from an earlier one, without one they follow from the census.

/** @typedef {{point: number, hit: number, kind: string}} Fault */
/**
 * A plan that has one fault more than an earlier one, or a text, where it grew from none.
 * @typedef {{parent: number|null, fault: Fault|null, text: string|null}} Row
 */

/** @type {Row} */
const WITHOUT_FAULTS = { parent: null, fault: null, text: "" };
const BETWEEN_FAULTS = "; ";
const FAULT = /^(\d+) (\d+) (1\*panic|(?:1\*)?return(?:\(.*\))?)$/s;

/**
 * The plans that grew: each is an earlier one's text with one fault more. Null stands where a text isn't that. Many
 * plans have the same fault, which is read once, and the same parent as the one before.
 * @param {any} told
 * @returns {(Row|null)[]}
 */
function grownRows({ census, about }) {
  const numbers = new Map();
  const faults = new Map();
  const faultOf = (text) => {
    if (!faults.has(text)) faults.set(text, readFault(text, census.length));
    return faults.get(text);
  };
  let [before, parent] = ["", 0];
  return about.grown.map((text, number) => {
    numbers.set(text, number);
    if (number === 0) return text === "" ? WITHOUT_FAULTS : null;
    const cut = text.lastIndexOf(BETWEEN_FAULTS);
    const isOfSame = before.length === Math.max(cut, 0) && text.startsWith(before);
    if (!isOfSame) [before, parent] = [text.slice(0, Math.max(cut, 0)), numbers.get(text.slice(0, Math.max(cut, 0)))];
    const fault = faultOf(cut < 0 ? text : text.slice(cut + BETWEEN_FAULTS.length));
    return parent === undefined || fault === null ? null : { parent, fault, text: null };
  });
}

/** @param {string} text @param {number} points how many there are @returns {Fault|null} */
function readFault(text, points) {
  const match = FAULT.exec(text);
  return match && Number(match[1]) < points ? { point: Number(match[1]), hit: Number(match[2]), kind: match[3] } : null;
}

/** The plans at hits of the run without faults: each fails once, from then on, and panics. @param {any} told @returns {Row[]} */
function hitRows({ census }) {
  const hits = census.flatMap(({ hits }, point) => Array.from({ length: hits }, (_, index) => ({ point, hit: index + 1 })));
  return hits.flatMap((hit) => ["1*return", "return", "1*panic"].map((kind) => ({ parent: 0, fault: { ...hit, kind }, text: null })));
}

/** The plans of two hits: both fail, and the second panics. @param {Row[]} rows those at hits, three of each @returns {Row[]} */
function pairRows(rows) {
  const firsts = rows.map((row, index) => ({ fault: row.fault, number: index + 1 })).filter((_, index) => index % 3 === 0);
  return firsts.flatMap(({ number }, index) => firsts.slice(index + 1).flatMap(({ fault }) =>
    ["1*return", "1*panic"].map((kind) => ({ parent: number, fault: { ...fault, kind }, text: null }))));
}

/**
 * All plans, in the order of their numbers. Null stands for one that can't be read.
 * @param {any} told
 * @returns {(Row|null)[]}
 */
export function rowsOfPlans(told) {
  const { storms, listed } = told.about;
  const texts = [...storms, ...listed].map((text) => ({ parent: null, fault: null, text }));
  if (told.growth) return [...grownRows(told), ...texts];
  if (told.counts.plans === 0) return texts;
  const rows = hitRows(told);
  const pairs = told.counts.plans > 1 + rows.length + texts.length ? pairRows(rows) : [];
  return [WITHOUT_FAULTS, ...rows, ...pairs, ...texts];
}
