// Scenarios, runs and what was tried, in words.
import { KEEP, NEXT, WORK, clausesOf, parseTerm } from "./scenario.js";

/** @typedef {import("./scenario.js").Clause} Clause */
/** How a point is called. @typedef {(point: string) => string} Call */

const SHOWN_AS_CODE = /[\u0000-\u001f\u007f-\u009f\u061c\u200b-\u200f\u2028-\u202e\u2060-\u206f\ufeff\ufff9-\uffff]/g;

/**
 * A text of others, to be shown: characters that can't be seen, or that turn what follows them around, stand as their numbers.
 * @param {string} text
 */
export function shown(text) {
  return text.replace(SHOWN_AS_CODE, (character) => `\u27e8U+${character.charCodeAt(0).toString(16).toUpperCase().padStart(4, "0")}\u27e9`);
}

/** @param {number} count @param {string} one @param {string} [many] */
export function counted(count, one, many = `${one}s`) {
  return `${grouped(count)} ${count === 1 ? one : many}`;
}

/** @param {number} count */
export function grouped(count) {
  return String(count).replace(/\B(?=(\d{3})+$)/g, "\u202f");
}

/** @param {number} number */
export function ordinal(number) {
  const tens = number % 100;
  const ending = tens >= 11 && tens <= 13 ? "th" : ["th", "st", "nd", "rd"][number % 10] ?? "th";
  return `${grouped(number)}${ending}`;
}

/** @param {string[]} texts @param {string} [word] */
export function listed(texts, word = "and") {
  if (texts.length < 2) return texts.join("");
  return `${texts.slice(0, -1).join(", ")} ${word} ${texts[texts.length - 1]}`;
}

/** @param {string} text */
export function sentence(text) {
  return `${text.charAt(0).toUpperCase()}${text.slice(1)}.`;
}

/** A file as it is told: the supervisor names files from the folder of the data on, which is `.` itself. @param {string} name */
export function fileWords(name) {
  return name === "." ? "the data folder" : name;
}

/** The points of calls of the system, as the supervisor of outside/ names them. */
const IS_CALL = /^(?:sys|libc)::/;

/** What is hit at points that aren't a program's calls. */
const NAMED = new Map([[KEEP, "change asked for"], [NEXT, "choice between threads"], [WORK, "request for an operation"]]);

/** What a return does in place of a failure, at a call of the system: as what the call does, and as a kind. */
const DEEDS = new Map([
  ["HALF", ["does its first half alone", "its first half alone"]],
  ["DROP", ["answers that all is done, and does nothing", "a loss that nobody is told"]],
  ["KILL", ["kills its process", "the end of its process alone"]],
  ["TERM", ["sends SIGTERM to its process", "a SIGTERM to its process"]],
  ["FULL", ["finds a disk that is full until room is given back", "a disk that is full until room is given back"]],
]);

/** @param {string} point @param {string} argument */
function deedOf(point, argument) {
  return IS_CALL.test(point) ? DEEDS.get(argument) : undefined;
}

/**
 * How points are called: by what stands behind the last `::`, where no other point is called so; `sys::write@a.db` is `write of a.db`. Files are told from
 * the data folder on, which is `.` itself.
 * @param {string[]} points
 * @returns {(point: string) => string}
 */
export function callsOf(points) {
  const short = points.map(lastOf);
  const calls = new Map(NAMED);
  points.forEach((point, index) => {
    if (NAMED.has(point)) return;
    const alone = short.filter((name) => name === short[index]).length === 1;
    const [name, ...file] = (alone ? short[index] : point).split("@");
    const named = IS_CALL.test(point) ? fileWords(file.join("@")) : file.join("@");
    calls.set(point, file.length > 0 && name !== "" ? `${name} of ${named}` : name || point);
  });
  return (point) => calls.get(point) ?? point;
}

/** @param {string} point */
function lastOf(point) {
  const at = point.indexOf("@");
  const name = at < 0 ? point : point.slice(0, at);
  const colons = name.lastIndexOf("::");
  return colons >= 0 && colons + 2 < name.length ? point.slice(colons + 2) : point;
}

/** @param {Clause} clause @param {Call} call */
function hitWords({ point, first, last }, call) {
  const name = call(point);
  if (last === Infinity) return first === 1 ? `each ${name}` : `each ${name} from the ${ordinal(first)} on`;
  if (last > first) return `each ${name} from the ${ordinal(first)} to the ${ordinal(last)}`;
  return `the ${ordinal(first)} ${name}`;
}

/**
 * What a call comes to that a return answers. To points of a program's own an argument is a text, of which the program makes what it likes.
 * @param {string} point
 * @param {string|null} argument
 */
function failureWords(point, argument) {
  if (argument === null) return "fails";
  if (/^E[A-Z0-9]+$/.test(argument)) return `fails with ${argument}`;
  return deedOf(point, argument)?.[0] ?? `fails with the text \u201c${argument}\u201d`;
}

/** @param {Clause} clause @param {Call} call */
function actWords(clause, call) {
  const hit = hitWords(clause, call);
  const { point, term: { task, argument } } = clause;
  if (point === KEEP && (task === "return" || task === "panic")) return `${hit} is ${task === "return" ? "kept" : "lost all the same"}`;
  if (point === NEXT && task === "return") return `at ${hit} the next one goes first`;
  if (point === WORK && task === "return") return `at ${hit} operation ${argument} is given`;
  switch (task) {
    case "return": return `${hit} ${failureWords(point, argument)}`;
    case "panic": return `the program ends at ${hit}`;
    case "pause": return `the run is ended at ${hit}`;
    case "print": return `a note is taken at ${hit}`;
    case "drawn": return `what ${hit} answers is drawn by ${argument}`;
    default: return `${hit} takes ${argument} ms more`;
  }
}

/** What a hit of the power cut asks for ends so where a sync made the change last: whether the disk undoes it. */
export const UNDONE = /,? undone$/;

/**
 * What an answer comes to at a hit of a run.
 * @param {string} point
 * @param {string|null} answer null where the hit goes on
 * @param {string} about what the hit asks for, or its file; empty where nobody tells it
 * @returns {string|null}
 */
export function answerWords(point, answer, about) {
  const term = answer === null ? null : parseTerm(answer);
  const isReturn = term?.task === "return";
  if (point === KEEP) return `${isReturn ? "is" : "isn\u2019t"} ${UNDONE.test(about) ? "undone" : "kept"}`;
  if (term === null) return answer;
  if (isReturn && point === NEXT) return "the next one goes first";
  if (isReturn && point === WORK) return `operation ${term.argument} is given`;
  if (isReturn) return failureWords(point, term.argument);
  return term.task === "panic" ? "the program ends here" : answer;
}

/** Whether a power cut keeps something by this clause. @param {Clause} clause */
function isOfCut(clause) {
  return clause.point === KEEP && clause.term.task === "return" && clause.term.percent === null;
}

/** What a power cut keeps. @param {Clause[]} clauses @param {Call} call */
function cutWords(clauses, call) {
  return `the power cut keeps ${listed(clauses.map((clause) => hitWords(clause, call)))}`;
}

/** @param {Clause} clause @param {Call} call */
function clauseWords(clause, call) {
  const { percent } = clause.term;
  const words = actWords(clause, call);
  if (percent === null) return words;
  const times = clause.term.count === null ? "" : `, ${clause.term.count} times at most`;
  const anywhere = actWords({ ...clause, first: 1, last: Infinity }, call);
  return `${anywhere} by chance, in ${percent} of 100${times}`;
}

/**
 * What happens where these clauses act. Where they aren't in the order of time, what the power cut keeps stands last.
 * @param {Clause[]} clauses
 * @param {Call} call
 * @param {boolean} [inOrder]
 */
export function wordsOfClauses(clauses, call, inOrder = false) {
  if (clauses.length === 0) return "no fault";
  const ordered = inOrder ? clauses : [...clauses.filter((clause) => !isOfCut(clause)), ...clauses.filter(isOfCut)];
  const parts = [];
  for (let begin = 0, end = 0; begin < ordered.length; begin = end) {
    end = begin + 1;
    if (!isOfCut(ordered[begin])) {
      parts.push(clauseWords(ordered[begin], call));
      continue;
    }
    while (end < ordered.length && isOfCut(ordered[end])) end += 1;
    parts.push(cutWords(ordered.slice(begin, end), call));
  }
  return parts.join("; ");
}

/**
 * @param {string} scenario
 * @param {Call} call
 */
export function wordsOfScenario(scenario, call) {
  const clauses = clausesOf(scenario);
  return clauses === null ? "a scenario that this page can't put in words" : wordsOfClauses(clauses, call);
}

/**
 * A kind of fault, as `return(ENOSPC)`, in words.
 * @param {string} point
 * @param {string} kind
 */
export function wordsOfKind(point, kind) {
  const { task, argument } = parseTerm(kind) ?? { task: kind, argument: null };
  if (task === "panic") return "the end of the program";
  if (point === NEXT) return "that the next one goes first";
  if (argument === null) return "a failure";
  if (point === WORK) return `operation ${argument}`;
  if (argument === "ENOSPC") return "a full disk (ENOSPC)";
  return deedOf(point, argument)?.[1] ?? (/^E[A-Z0-9]+$/.test(argument) ? argument : `a failure with the text \u201c${argument}\u201d`);
}

/**
 * A word of a command, as a shell reads it.
 * @param {string} word
 */
export function quoted(word) {
  return /^[A-Za-z0-9_./=:@%+,-]+$/.test(word) ? word : `'${word.replace(/'/g, "'\\''")}'`;
}
