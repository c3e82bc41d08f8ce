// Documents of campaigns that never ran, drawn by a number: of any size, depth, kinds and names, as the program would tell them.
import { spell } from "../scenario.js";

/** Numbers that look random, the same for the same seed. @param {number} seed */
export function numbers(seed) {
  let state = (seed * 2654435761 + 12345) >>> 0;
  const below = (bound) => {
    state = (state + 0x6d2b79f5) >>> 0;
    let mixed = Math.imul(state ^ (state >>> 15), state | 1);
    mixed ^= mixed + Math.imul(mixed ^ (mixed >>> 7), mixed | 61);
    return ((mixed ^ (mixed >>> 14)) >>> 0) % bound;
  };
  return { below, among: (list) => list[below(list.length)] };
}

export const MOST = 65536;
const POINTS = ["libc::open", "libc::write", "libc::fsync", "libc::rename", "store::flush", "send", "libc::write@a.db", "power::keep"];
const KINDS = [["return", "panic"], ["return(ENOSPC)", "return(HALF)", "panic"], ["return"]];
const CODES = ["lost", "torn", "split", "corrupt", "stale", "half", "unopenable", "gone", "late", "twice"];

/** What a campaign is drawn from. @param {number} seed */
export function drawn(seed) {
  const draw = numbers(seed);
  return {
    draw, depth: draw.below(10) === 0 ? null : draw.below(9), longest: 1 + draw.below(draw.among([4, 8, 30, 250])), most: draw.among([1, 40, 400, 4000]),
    points: POINTS.slice(0, 1 + draw.below(POINTS.length)), codes: CODES.slice(0, 1 + draw.below(CODES.length)), failing: draw.among([0, 1, 10, 60]),
    kinds: draw.below(3) === 0, storms: draw.below(4) === 0 ? draw.below(50) : 0, listed: draw.below(4) === 0 ? draw.below(5) : 0,
    told_by: draw.below(5) === 0 ? "answers" : "target",
  };
}

/**
 * The plans that grow: each has `run`, its hits up to those that are known, and `begin`, where hits behind its last fault begin.
 * @param {any} options
 * @param {string[][]} tried the kinds of each point
 */
function grow({ draw, depth, longest, most, points }, tried) {
  const drawRun = (prefix) => [...prefix, ...Array.from({ length: draw.below(Math.max(1, longest - prefix.length)) }, () => draw.below(points.length))];
  const plans = [{ parent: null, fault: null, run: Array.from({ length: longest }, () => draw.below(points.length)), begin: 0 }];
  const levels = [1];
  let first = 0;
  for (let faults = 1; faults <= depth; faults += 1) {
    const end = plans.length;
    for (let parent = first; parent < end; parent += 1) {
      const { run, begin } = plans[parent];
      const room = Math.max(0, Math.floor((most - plans.length) / 3));
      const known = run.slice(0, begin + room);
      for (let at = begin; at < known.length; at += 1) {
        const hit = run.slice(0, at + 1).filter((point) => point === run[at]).length;
        for (const kind of tried[run[at]]) {
          plans.push({ parent, fault: { point: run[at], hit, kind: `1*${kind}` }, run: drawRun(run.slice(0, at + 1)), begin: at + 1 });
        }
      }
    }
    levels.push(plans.length - end);
    first = end;
  }
  return { plans, levels, last: Array.from({ length: plans.length - first }, (_, index) => first + index) };
}

/** The plans of the last level whose last fault goes on: some of those whose last fault is a return. @param {any} grown @param {any} options */
function goOn({ plans, last }, { draw }) {
  return last.filter((number) => plans[number].fault?.kind.startsWith("1*return") && draw.below(3) === 0).slice(0, MOST - plans.length);
}

/** The plans at the hits of the run without faults, point by point. @param {any} options */
function atHits({ draw, longest, points, most }) {
  const run = Array.from({ length: Math.min(longest, Math.floor(most / 3)) }, () => draw.below(points.length)).sort((one, other) => one - other);
  const plans = [{ parent: null, fault: null, run }];
  run.forEach((point, at) => {
    const hit = run.slice(0, at + 1).filter((one) => one === point).length;
    for (const kind of ["1*return", "return", "1*panic"]) plans.push({ parent: 0, fault: { point, hit, kind }, run });
  });
  return { plans };
}

/** @param {any[]} plans @param {number} number */
function faultsBefore(plans, number) {
  const faults = [];
  for (let at = number; plans[at].fault; at = plans[at].parent) faults.unshift(plans[at].fault);
  return faults;
}

/** A plan as a document tells it. @param {any[]} plans @param {number} number */
function faultsText(plans, number) {
  return faultsBefore(plans, number).map(({ point, hit, kind }) => `${point} ${hit} ${kind}`).join("; ");
}

/** The verdict of each plan, the run without faults passing. @param {any} options @param {number} size */
function verdicts({ draw, codes, failing }, size) {
  return Array.from({ length: size }, (_, number) => {
    const at = draw.below(100);
    if (number > 0 && at < failing) return { verdict: "fail", code: draw.among(codes) };
    return at === 99 ? { verdict: "unresolved", code: null } : { verdict: "pass", code: null };
  });
}

/** @param {any[]} notPassed */
function findingsOf(notPassed) {
  const fails = notPassed.filter((item) => item.verdict === "fail");
  const firsts = fails.filter((item, index) => fails.findIndex((other) => other.code === item.code) === index);
  return firsts.map(({ number, code, scenario }) => ({ number, code, scenario, reduced: scenario, tests: 1 }));
}

/** The member `growth` of a document. @param {any} options @param {any} grown @param {any} told */
function growthOf({ depth, draw }, { levels }, { onward, reached, findings }) {
  const causes = findings.map(({ number, code, scenario }) => ({ number, code, scenario }));
  return { depth, levels, onward: onward.length, beyond: draw.below(2) * 12, reached, causes };
}

/**
 * The lines of a run: `hits` are the places of its points, `answers` what was answered, `go` where nothing is said.
 * @param {string[]} points
 * @param {number[]} hits
 * @param {(place: number, ordinal: number) => string|undefined} answer
 */
export function explained(points, hits, answer, verdict = "pass") {
  const ordinals = points.map(() => 0);
  const lines = hits.map((place, index) => {
    ordinals[place] += 1;
    return `hit ${index + 1} ${points[place]} ${ordinals[place]} ${answer(place, ordinals[place]) ?? "go"}\n`;
  });
  return { explained: [`verdict ${verdict}\n`, ...lines].join("") };
}

/** The run of a plan, each fault answered where it acts. @param {string[]} points @param {any[]} plans @param {number} number */
function runOf(points, plans, number) {
  const { run } = plans[number] ?? plans[0];
  const faults = plans[number] ? faultsBefore(plans, number) : [];
  const acts = ({ hit, kind }, ordinal) => (kind.startsWith("1*") ? ordinal === hit : ordinal >= hit);
  return explained(points, run, (place, ordinal) => faults.find((fault) => fault.point === place && acts(fault, ordinal))?.kind.replace("1*", ""));
}

/** A run as a document tells it: beside that of its parent, where its plan has two faults or more. @param {any} options @param {any[]} plans @param {number} number */
function runBesideParent({ points, depth }, plans, number) {
  const run = runOf(points, plans, number);
  const isDeep = depth !== null && number < plans.length && faultsBefore(plans, number).length > 1;
  return isDeep ? { ...run, parent: runOf(points, plans, plans[number].parent) } : run;
}

/** What a document tells of its runs: those of findings and causes are the same. Answers may tell hits or not. @param {any} options @param {any[]} plans @param {any[]} findings */
function runsTold(options, plans, findings) {
  const { draw, depth, told_by } = options;
  const tell = (run) => (told_by === "answers" && draw.below(4) === 0 ? null : run);
  const less = ({ parent, ...run }) => (told_by === "answers" && draw.below(4) === 0 ? run : { ...run, ...(parent && { parent }) });
  const runs = findings.map(({ number }) => tell(less(runBesideParent(options, plans, number))));
  return { clean_run: tell(runOf(options.points, plans, 0)), finding_runs: runs, cause_runs: depth === null ? [] : runs };
}

/**
 * A document, and beside it what its plans are: their texts, verdicts and levels, worked out here.
 * @param {any} options
 */
export function makeDocument(options) {
  const { depth, points, storms, listed, told_by } = options;
  const tried = points.map((point, index) => (point === "power::keep" ? KINDS[2] : options.kinds ? KINDS[index % 2] : KINDS[0]));
  const grown = depth === null ? atHits(options) : grow(options, tried);
  const onward = depth ? goOn(grown, options) : [];
  const going = onward.map((number) => ({ ...grown.plans[number], fault: { ...grown.plans[number].fault, kind: grown.plans[number].fault.kind.slice(2) } }));
  const plans = [...grown.plans, ...going];
  const texts = plans.map((_, number) => spell(faultsBefore(plans, number), points));
  const further = Array.from({ length: storms + listed }, (_, at) => `${points[at % points.length]}=${at + 1}*off->${at % 2 ? "return" : "1*panic"}`);
  texts.push(...further);
  const told = verdicts(options, texts.length);
  const notPassed = told.flatMap(({ verdict, code }, number) => (verdict === "pass" ? [] : [{ number, verdict, code, scenario: texts[number] }]));
  const count = (verdict) => told.filter((one) => one.verdict === verdict).length;
  const reached = points.map((point, index) => ({ point, hits: plans[0].run.filter((one) => one === index).length }));
  const findings = findingsOf(notPassed);
  const level = plans.map((_, number) => (number >= grown.plans.length ? "onward" : String(faultsBefore(plans, number).length)));
  return {
    document: {
      version: 1, label: options.label ?? "a store", seed: "7", clean: { verdict: told[0].verdict, code: told[0].code }, census: reached,
      counts: { plans: texts.length, pass: count("pass"), fail: count("fail"), unresolved: count("unresolved") }, not_passed: notPassed, findings,
      growth: depth === null ? null : growthOf(options, grown, { onward, reached, findings }),
      about: {
        program_version: "0.3.1", told_by, command: "paklour run --json FILE", settings: "seed = 7\n", storms: further.slice(0, storms),
        listed: further.slice(storms), grown: depth === null ? [] : plans.map((_, number) => faultsText(plans, number)), ...runsTold(options, plans, findings),
      },
    },
    texts, told, levels: [...level, ...further.map((_, at) => (at < storms ? "storms" : "listed"))],
  };
}

const SPELLS = [
  "\"><img src=x onerror=pwned()>", "</script><script>pwned()</script>", "<!--<script>", "&lt;b&gt;&amp;", "'\"`${pwned()}", "a\u0000\u0007\u001b[31m",
  "\u202egnp.exe\u2066", "</pre></details></noscript>", "]]>--!>", "\\u003cimg onerror=pwned()\\u003e", "{{BRIEF}}{{DOCUMENT}}{{SCRIPT}}",
  "javascript:pwned()", "x".repeat(5000), "\ud83d\udca5 \u00e9\u4e2d", " leading and trailing ",
];

/** A document in which each name tries to be more than a name. */
export function hostileDocument() {
  const points = SPELLS.map((text, index) => `${text.replace(/[=;]/g, "")}::${index}${text.replace(/[=;]/g, "")}`);
  const draw = numbers(5);
  const size = { depth: 2, longest: 15, most: 2000, failing: 60, storms: 2, listed: 2 };
  const options = { ...drawn(5), ...size, draw, points, codes: SPELLS, kinds: false, told_by: "target", label: SPELLS.join(" ") };
  const made = makeDocument(options);
  const { document } = made;
  const run = explained(points, points.map((_, place) => place), (place) => (place % 3 === 0 ? `return(${SPELLS[place]})` : undefined), `fail ${SPELLS[0]}`);
  const runs = { clean_run: run, finding_runs: document.findings.map(() => run), cause_runs: document.growth.causes.map(() => run) };
  const about = { ...document.about, program_version: SPELLS[0], command: SPELLS.join(" "), settings: SPELLS.join("\n"), ...runs };
  return { ...made, document: { ...document, about } };
}

const largest = new Map();

/** As many plans as a campaign has at most; made once, as it takes a second. @param {number} depth */
export function largestDocument(depth) {
  if (!largest.has(depth)) {
    largest.set(depth, makeDocument({
      ...drawn(3), draw: numbers(3), depth, longest: depth === 2 ? 256 : 14, most: MOST - 200, points: POINTS, codes: CODES.slice(0, 4), failing: 3,
      kinds: false, storms: 0, listed: 0, told_by: "target",
    }));
  }
  return largest.get(depth);
}
