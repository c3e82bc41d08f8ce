// A run hit by hit, beside another one.
import { KEEP, clausesOf, spell } from "./scenario.js";
import { UNDONE } from "./words.js";

/** @typedef {{point: number, answer: string|null}} Step */
/** @typedef {{scenario: string, verdict: string, steps: Step[], more: number, end: string|null}} Run */
/** @typedef {{number: number, point: string, ordinal: number, answer: string|null, about?: string, kept?: boolean, near?: boolean}} Hit */
/**
 * What is known of a run's hits besides: what each is about, and the state of the last power cut, if the disk doesn't keep what the scenario says.
 * @typedef {{about: string[], state: string}} Known
 */
/** A run as a document tells it. @typedef {{explained: string, left_out?: number, parent?: {explained: string, left_out?: number}}} Told */
/**
 * A line of two runs side by side. `same` is where both hit the same point and are answered the same. Near is a hit of a file at whose hits a fault acts.
 * @typedef {{here: Hit|null, there: Hit|null, same: boolean, fault: boolean}} Line
 */
/** @typedef {{fold: false, line: Line}|{fold: true, lines: Line[]}} Piece */

/** A stretch of so many lines that are the same is folded. */
const FOLDED = 6;
const UNKNOWN = { about: [], state: "" };
const OF_BYTES = /^(?:length of|block) /;
/** Whether a state has what a power cut asks for, by its words. Each has what a sync made last. */
const HAS = new Map([
  ["names", (about) => !OF_BYTES.test(about) && !UNDONE.test(about)],
  ["contents", (about) => OF_BYTES.test(about)],
  ["live", (about) => !UNDONE.test(about)],
]);
const KEPT_BEFORE = 2;

/** Where the lines of `explain` are cut: names and tasks may have line feeds. Behind the last hit stands what stopped the run, and which faults were idle. */
const BEFORE_HIT = /\n(?=hit \d)/;
const BEHIND_HITS = /\n(?=stopped |idle |$)/;

/**
 * By what a run is known: its scenario, and where something in it may be left to chance, the plan whose numbers were drawn.
 * @param {number} number
 * @param {string} scenario
 */
export function runKey(number, scenario) {
  return scenario.includes("%") ? `${number} ${scenario}` : scenario;
}

/**
 * The point and the answer of a hit, from its line behind `hit N `; null where the line isn't the next hit of any point. A name may have blanks, and
 * another one may begin with it: the longest counts.
 * @param {string} line
 * @param {Map<string, number>} places
 * @param {number[]} hits how often each point was hit before
 * @returns {Step|null}
 */
function readHit(line, places, hits) {
  for (let at = line.lastIndexOf(" "); at > 0; at = line.lastIndexOf(" ", at - 1)) {
    const point = places.get(line.slice(0, at));
    const next = point === undefined ? null : `${hits[point] + 1} `;
    if (next === null || !line.startsWith(next, at + 1)) continue;
    const task = line.slice(at + 1 + next.length);
    return { point, answer: task === "go" ? null : task };
  }
  return null;
}

/**
 * A run, from the lines of `explain`.
 * @param {string} scenario
 * @param {{explained: string, left_out?: number}} told
 * @param {string[]} names
 * @returns {Run}
 */
export function readRun(scenario, { explained, left_out: more = 0 }, names) {
  const places = new Map(names.map((name, place) => [name, place]));
  const hits = names.map(() => 0);
  const steps = [];
  const lines = explained.split(BEFORE_HIT);
  const [last, ...behind] = lines.pop().split(BEHIND_HITS);
  const [first, ...hitLines] = [...lines, last];
  for (const line of hitLines) {
    const head = `hit ${steps.length + 1} `;
    const step = line.startsWith(head) ? readHit(line.slice(head.length), places, hits) : null;
    if (step) {
      hits[step.point] += 1;
      steps.push(step);
    } else if (steps.length > 0) steps[steps.length - 1].answer = `${steps[steps.length - 1].answer ?? "go"}\n${line}`;
  }
  const stopped = behind.find((line) => line.startsWith("stopped "));
  return { scenario, verdict: first.replace(/^verdict /, ""), steps, more, end: stopped ? stopped.slice("stopped ".length) : null };
}

/** The runs that a document tells. Each may have a thousand hits, so one is read where it is asked for. */
export class Runs {
  /** @param {string[]} names */
  constructor(names) {
    this.names = names;
    /** @type {Map<string, {scenario: string, told: Told, before: string|null}>} */
    this.told = new Map();
    /** @type {Map<string, Run>} */
    this.read = new Map();
  }

  /**
   * @param {number} number
   * @param {string} scenario
   * @param {Told|null} told null where nobody told this run
   * @param {string|null} [parent] the scenario of the plan that this one grew from
   */
  add(number, scenario, told, parent = null) {
    if (told === null) return;
    const before = told.parent ? parent : null;
    const key = runKey(number, scenario);
    if (before !== null || !this.told.has(key)) this.told.set(key, { scenario, told, before });
    if (before !== null && !this.told.has(before)) this.told.set(before, { scenario: before, told: told.parent, before: null });
  }

  /** Whether a run is told. @param {number} number @param {string} scenario */
  has(number, scenario) {
    return this.told.has(runKey(number, scenario));
  }

  /** @param {number} number @param {string} scenario @returns {Run|null} */
  of(number, scenario) {
    return this.get(runKey(number, scenario));
  }

  /** @param {string} key @returns {Run|null} */
  get(key) {
    const known = this.told.get(key);
    if (known && !this.read.has(key)) this.read.set(key, readRun(known.scenario, known.told, this.names));
    return this.read.get(key) ?? null;
  }

  /**
   * The run to look at beside another one: its parent's; where that isn't told, that without the fault which acted last, else that without faults.
   * @param {Run} run
   * @returns {Run|null}
   */
  beside(run) {
    if (run.scenario === "") return null;
    const { before = null } = this.told.get(run.scenario) ?? {};
    if (before !== null) return this.get(before);
    const faults = run.more > 0 ? [] : singleFaults(run.scenario, this.names);
    const acted = hitsOf(run, this.names).flatMap((hit) => faults.filter((fault) => fault.hit === hit.ordinal && this.names[fault.point] === hit.point));
    const last = acted[acted.length - 1];
    const less = last && this.get(spell(faults.filter((fault) => fault !== last), this.names));
    return less ?? this.get("");
  }
}

/**
 * The hits of a run. Those of the last power cut are the last ones, as far as all hits are told.
 * @param {Run} run
 * @param {string[]} names
 * @param {Known} [known]
 * @returns {Hit[]}
 */
export function hitsOf(run, names, known = UNKNOWN) {
  const ordinals = new Map();
  const cut = run.more > 0 ? Infinity : run.steps.findLastIndex(({ point }) => names[point] !== KEEP) + 1;
  return run.steps.map(({ point, answer }, index) => {
    const ordinal = (ordinals.get(point) ?? 0) + 1;
    ordinals.set(point, ordinal);
    const name = names[point];
    const about = name.includes("@") ? undefined : known.about[index];
    const kept = index >= cut && about !== undefined ? HAS.get(known.state)?.(about) : undefined;
    return { number: index + 1, point: name, ordinal, answer, ...(about !== undefined && { about }), ...(kept !== undefined && { kept }) };
  });
}

/** Whether an answer is a fault: the call fails, or the run stops there. @param {string|null} answer */
export function isFault(answer) {
  return answer !== null && /^(return|panic|pause)/.test(answer);
}

/**
 * The faults of a scenario of which each acts at one hit, or from there on; none of any other scenario.
 * @param {string} scenario
 * @param {string[]} names
 */
function singleFaults(scenario, names) {
  const clauses = clausesOf(scenario) ?? [];
  const isSingle = ({ term, first, last }) => term.percent === null && term.task !== "drawn" && (last === first || last === Infinity);
  if (!clauses.every(isSingle)) return [];
  return clauses.map(({ point, term, first, last }) => {
    const kind = term.argument === null ? term.task : `${term.task}(${term.argument})`;
    return { point: names.indexOf(point), hit: first, kind: last === first ? `1*${kind}` : kind };
  });
}

/**
 * Which hits of two runs stand beside each other: as many as there can be at the same points in the same order, after those with which both begin.
 * @param {Hit[]} here
 * @param {Hit[]} there
 * @returns {[number, number][]}
 */
function pairsOf(here, there) {
  const isPair = (one, other) => here[one].point === there[other].point;
  const most = Math.min(here.length, there.length);
  let begin = 0;
  while (begin < most && isPair(begin, begin)) begin += 1;
  const pairs = Array.from({ length: begin }, (_, at) => /** @type {[number, number]} */ ([at, at]));
  const width = there.length + 1;
  // How many pairs there are at most from a hit of each on.
  const counts = new Uint16Array((here.length + 1) * width);
  for (let one = here.length - 1; one >= begin; one -= 1) {
    for (let other = there.length - 1; other >= begin; other -= 1) {
      const at = one * width + other;
      counts[at] = isPair(one, other) ? counts[at + width + 1] + 1 : Math.max(counts[at + width], counts[at + 1]);
    }
  }
  for (let one = begin, other = begin; one < here.length && other < there.length;) {
    const at = one * width + other;
    if (isPair(one, other)) pairs.push([one++, other++]);
    else if (counts[at + width] >= counts[at + 1]) one += 1;
    else other += 1;
  }
  return pairs;
}

/**
 * Two runs, line by line; `beside` is null where none is told. Hits of one run alone stand beside those of the other alone, as they come.
 * @param {Run} run
 * @param {Run|null} beside
 * @param {string[]} names
 * @param {(scenario: string) => Known} [known]
 * @returns {Line[]}
 */
export function linesOf(run, beside, names, known = () => UNKNOWN) {
  const here = hitsOf(run, names, known(run.scenario));
  const there = beside ? hitsOf(beside, names, known(beside.scenario)) : [];
  const lines = [];
  const add = (one, other) => {
    const same = one !== null && other !== null && one.point === other.point && one.answer === other.answer && one.kept === other.kept;
    lines.push({ here: one, there: other, same, fault: isFault(one?.answer ?? null) });
  };
  let [nextHere, nextThere] = [0, 0];
  for (const [one, other] of [...pairsOf(here, there), [here.length, there.length]]) {
    const [alone, lacking] = [here.slice(nextHere, one), there.slice(nextThere, other)];
    for (let at = 0; at < Math.max(alone.length, lacking.length); at += 1) add(alone[at] ?? null, lacking[at] ?? null);
    if (one < here.length || other < there.length) add(here[one], there[other]);
    [nextHere, nextThere] = [one + 1, other + 1];
  }
  const files = filesOfFaults(lines);
  for (const hit of [...here, ...there]) hit.near = files.has(fileOf(hit));
  return lines;
}

/** The file of a hit; null where nobody tells it. @param {Hit} hit */
function fileOf({ point, about }) {
  const at = point.indexOf("@");
  return at >= 0 ? point.slice(at + 1) : point === KEEP ? null : about ?? null;
}

/** The files at whose hits a fault acts, where they are told. @param {Line[]} lines @returns {Set<string>} */
export function filesOfFaults(lines) {
  const files = lines.filter(({ fault }) => fault).map(({ here }) => fileOf(here));
  return new Set(files.filter((file) => file !== null));
}

/**
 * Long stretches that are the same in both runs, folded. What a fault may have to do with stays.
 * @param {Line[]} lines
 * @returns {Piece[]}
 */
export function foldLines(lines) {
  const pieces = [];
  let begin = 0;
  for (let at = 0; at <= lines.length; at += 1) {
    if (at < lines.length && lines[at].same && !lines[at].fault && !lines[at].here.near) continue;
    const stretch = lines.slice(begin, at);
    const folded = stretch.length >= FOLDED ? stretch.length - KEPT_BEFORE : 0;
    if (folded > 0) pieces.push({ fold: true, lines: stretch.slice(0, folded) });
    for (const line of stretch.slice(folded)) pieces.push({ fold: false, line });
    if (at < lines.length) pieces.push({ fold: false, line: lines[at] });
    begin = at + 1;
  }
  return pieces;
}
