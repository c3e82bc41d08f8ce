// The syntax of scenarios, that of fail-rs: `POINT=TERM->TERM;POINT=TERM`, a term being `[PERCENT%][COUNT*]TASK[(ARGUMENT)]`.

/** @typedef {{percent: string|null, count: number|null, task: string, argument: string|null}} Term */
/** @typedef {{point: string, terms: Term[], chain: string}} Entry */
/**
 * Where a term acts: at the hits `first` to `last` of its point, counted from 1. `last` is Infinity where it goes on from then on. A term that
 * acts by chance has no certain hits: `percent` tells how often.
 * @typedef {{point: string, term: Term, first: number, last: number}} Clause
 */

/** The point at which a power cut asks for a change that is pending whether it is kept. */
export const KEEP = "power::keep";
/** The point of the order of threads: a return lets the next one go first. */
export const NEXT = "order::next";
/** The point at which a session asks what it is to do next. */
export const WORK = "work::next";

const TASKS = new Set(["off", "yield", "print", "sleep", "delay", "return", "panic", "pause"]);
const PASSING = new Set(["off", "yield"]);
const TERM = /^(?:(\d+(?:\.\d{1,4})?)%)?(?:(\d+)\*)?([a-z]+)$/;

/**
 * @param {string} text
 * @returns {Term|null}
 */
export function parseTerm(text) {
  const opening = text.indexOf("(");
  if (opening >= 0 && !text.endsWith(")")) return null;
  const head = opening < 0 ? text : text.slice(0, opening);
  const match = TERM.exec(head.trim());
  if (!match || !TASKS.has(match[3])) return null;
  return {
    percent: match[1] ?? null,
    count: match[2] === undefined ? null : Number(match[2]),
    task: match[3],
    argument: opening < 0 ? null : text.slice(opening + 1, -1),
  };
}

/**
 * @param {string} piece
 * @returns {Entry|null}
 */
function parseEntry(piece) {
  const equals = piece.indexOf("=");
  const point = piece.slice(0, Math.max(equals, 0)).trim();
  if (point === "") return null;
  const chain = piece.slice(equals + 1).trim();
  const terms = chain.split("->").map((term) => parseTerm(term.trim()));
  return terms.every((term) => term !== null) ? { point, terms: /** @type {Term[]} */ (terms), chain } : null;
}

/**
 * The entries of a scenario: none of `none` and of an empty text, null of one that isn't a scenario.
 * @param {string} text
 * @returns {Entry[]|null}
 */
export function parseScenario(text) {
  if (text === "none") return [];
  const entries = text.split(";").filter((piece) => piece.trim() !== "").map(parseEntry);
  return entries.every((entry) => entry !== null) ? /** @type {Entry[]} */ (entries) : null;
}

/**
 * Where each term of an entry acts. Beside a term that acts by chance nobody knows which hits another one has: such a chain is one clause, its
 * task `drawn`.
 * @param {Entry} entry
 * @returns {Clause[]}
 */
function clausesOfEntry({ point, terms, chain }) {
  if (terms.length > 1 && terms.some((term) => term.percent !== null)) {
    return [{ point, term: { percent: null, count: null, task: "drawn", argument: chain }, first: 1, last: Infinity }];
  }
  const clauses = [];
  let next = 1;
  for (const term of terms) {
    const last = term.count === null ? Infinity : next + term.count - 1;
    if (!PASSING.has(term.task) && term.count !== 0) clauses.push({ point, term, first: next, last });
    next = last + 1;
  }
  return clauses;
}

/**
 * @param {string} text
 * @returns {Clause[]|null}
 */
export function clausesOf(text) {
  const entries = parseScenario(text);
  return entries && entries.flatMap(clausesOfEntry);
}

/**
 * The terms of one point's faults, in the order of their hits. A fault that goes on from then on takes the same faults right before it into itself.
 * @param {{hit: number, kind: string}[]} faults
 */
function chainOf(faults) {
  const terms = [];
  let done = 0;
  for (const { hit, kind } of faults) {
    if (hit - 1 > done) terms.push(`${hit - 1 - done}*off`);
    while (!kind.startsWith("1*") && terms[terms.length - 1] === `1*${kind}`) terms.pop();
    terms.push(kind);
    done = hit;
  }
  return terms.join("->");
}

/** @typedef {{point: number, hit: number, kind: string}} SingleFault */
/** What a scenario says of one point. @typedef {{point: number, faults: SingleFault[], text: string}} Share */

/** @param {number} point @param {SingleFault[]} faults by their hits @param {string[]} names @returns {Share} */
function shareOf(point, faults, names) {
  return { point, faults, text: `${names[point]}=${chainOf(faults)}` };
}

/**
 * What the scenario of faults that each act at one hit, or from there on, says of each point, in the order of the catalogue.
 * @param {SingleFault[]} faults
 * @param {string[]} names
 * @returns {Share[]}
 */
export function sharesOf(faults, names) {
  const points = [...new Set(faults.map(({ point }) => point))].sort((one, other) => one - other);
  return points.map((point) =>
    shareOf(point, faults.filter((fault) => fault.point === point).sort((one, other) => one.hit - other.hit), names));
}

/** The scenario of faults, as the program spells it. @param {SingleFault[]} faults @param {string[]} names */
export function spell(faults, names) {
  return sharesOf(faults, names).map(({ text }) => text).join(";");
}

/**
 * A scenario with one fault more, of which what it says of other points stays.
 * @param {Share[]} shares
 * @param {SingleFault} fault
 * @param {string[]} names
 */
export function spellWith(shares, fault, names) {
  const own = shares.find(({ point }) => point === fault.point);
  const [{ text: added }] = own ? sharesOf([...own.faults, fault], names) : [shareOf(fault.point, [fault], names)];
  let text = "";
  let isIn = false;
  for (const share of shares) {
    if (!isIn && share.point > fault.point) {
      text += text === "" ? added : `;${added}`;
      isIn = true;
    }
    if (share !== own) text += text === "" ? share.text : `;${share.text}`;
  }
  if (isIn) return text;
  return text === "" ? added : `${text};${added}`;
}
