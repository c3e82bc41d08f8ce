// Draws the story of a failing run: what was pending, what lay there before and after, what was promised, and how the run is made again.
import { element, preformatted } from "./dom.js";
import { cutSentence } from "./told.js";
import { counted, grouped } from "./words.js";

/** @typedef {import("./told.js").Story} Story */
/** @typedef {import("./told.js").Side} Side */

/** @param {string[]} heads @param {HTMLElement[]} rows @param {string} kind */
function drawTable(heads, rows, kind) {
  const head = element("thead", {}, element("tr", {}, ...heads.map((words) => element("th", {}, words))));
  return element("div", { class: "scroll" }, element("table", { class: kind }, head, element("tbody", {}, ...rows)));
}

/** @param {Story} story */
function drawPending(story) {
  if (story.pending.length === 0) return [element("p", {}, cutSentence(story))];
  const rows = story.pending.map(({ what, kept }) =>
    element("tr", { class: kept === "lost" ? "lost" : null }, element("td", {}, element("code", {}, what)), element("td", {}, kept)));
  return [element("p", {}, cutSentence(story)), drawTable(["change that wasn\u2019t synced yet", "on the disk"], rows, "pending")];
}

/** @param {Side} side @param {Side|null} other */
function sideNotes({ kind, mode, length, begin }, other) {
  const notes = kind === "file" ? [length === 0 ? "empty" : counted(length, "byte")] : [kind];
  if (begin > 0) notes.push(`shown from byte ${grouped(begin)} on`);
  if (other !== null && other.mode !== mode) notes.push(`mode ${mode}`);
  return notes.join(", ");
}

/** @param {Side|null} side @param {Side|null} other */
function drawSide(side, other) {
  if (side === null) return element("td", { class: "muted" }, "isn\u2019t there");
  const text = `${side.begin > 0 ? "\u2026" : ""}${side.text}${side.text !== "" && side.more > 0 ? "\u2026" : ""}`;
  return element("td", {}, text === "" ? null : element("code", {}, text), element("div", { class: "muted" }, sideNotes(side, other)));
}

/** @param {Story} story */
function drawFiles({ files }) {
  if (files === null) return [];
  const same = files.same > 0 ? `${counted(files.same, "other file is", "other files are")} as before the run.` : null;
  const more = files.more > 0 ? `${counted(files.more, "more name differs", "more names differ")}.` : null;
  const unjudged = files.unjudged > 0 ? `${counted(files.unjudged, "file differs", "files differ")} into which the judge doesn\u2019t look.` : null;
  const notes = [more, same, unjudged].filter((note) => note !== null).join(" ");
  if (files.differences.length === 0) {
    const none = files.same + files.unjudged === 0;
    return [element("p", {}, none ? "No file was there, before the run or after it." : "When the judge looked, each file was as before the run.")];
  }
  const rows = files.differences.map(({ name, before, after }) =>
    element("tr", {}, element("th", { scope: "row" }, element("code", {}, name)), drawSide(before, after), drawSide(after, before)));
  const table = drawTable(["file", "before the run", "after it, when the judge looked"], rows, "files");
  return [table, ...(notes === "" ? [] : [element("p", { class: "muted" }, notes)])];
}

/** @param {Story} story */
function drawPromised({ promised, promised_before: before }) {
  if (promised.length === 0) return [element("p", {}, "The program had promised nothing by then: it had printed no line.")];
  const more = before > 0 ? ` (${counted(before, "line")} before these)` : "";
  return [element("p", {}, `What the program had printed by then, and so had promised${more}:`), preformatted(promised.join("\n"))];
}

/** @param {Story} story */
function drawLines({ verdict, files, judge, program }) {
  const code = verdict.replace(/^fail /, "");
  if (files !== null) {
    const said = judge.length > 0 ? [preformatted(judge.join("\n"))] : [];
    return [element("p", {}, `The judge, which checks what is left, says: ${code}${judge.length > 0 ? ". Its last lines:" : "."}`), ...said];
  }
  return program.length > 0 ? [element("p", {}, "The last lines that the program wrote to standard error:"), preformatted(program.join("\n"))] : [];
}

/** @param {string} command */
export function drawAgainCommand(command) {
  return element("p", { class: "again" }, "This run again: ", element("code", { class: "command" }, command));
}

/** @param {Story} story */
export function drawStory(story) {
  const further = story.further.length > 0 ? [element("ul", {}, ...story.further.map((words) => element("li", {}, words)))] : [];
  const parts = [...(story.files === null ? [] : drawPending(story)), ...drawFiles(story), ...drawPromised(story), ...drawLines(story), ...further];
  if (/\(\.\)/.test(story.words)) parts.unshift(element("p", { class: "muted" }, "The file . is the data folder itself, in which the program runs."));
  return element("div", { class: "story" }, ...parts, drawAgainCommand(story.again));
}
