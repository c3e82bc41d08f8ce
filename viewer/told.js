// What the loop has added to a page: the program, and a story for each finding and cause. A page of another origin has none.
import { count, list, members, orNull, readChecked, text } from "./document.js";
import { quoted } from "./words.js";

/** @typedef {{kind: string, mode: string, length: number, begin: number, text: string, more: number}} Side */
/** @typedef {{name: string, before: Side|null, after: Side|null}} Difference */
/**
 * @typedef {{
 *   scenario: string, verdict: string, words: string, state: string, pending: {what: string, kept: string}[], promised: string[], promised_before: number,
 *   files: {differences: Difference[], more: number, same: number, unjudged: number}|null, judge: string[], program: string[], hits: string[],
 *   again: string, further: string[]
 * }} Story
 */

const VERSION_TOLD = 1;
const oneSide = members({ kind: text, mode: text, length: count, begin: count, text, more: count });
const oneDifference = members({ name: text, before: orNull(oneSide), after: orNull(oneSide) });
const oneStory = members({
  scenario: text, verdict: text, words: text, state: text, pending: list(members({ what: text, kept: text })), promised: list(text), promised_before: count,
  files: orNull(members({ differences: list(oneDifference), more: count, same: count, unjudged: count })),
  judge: list(text), program: list(text), hits: list(text), again: text, further: list(text),
});
const appendix = members({
  title: text,
  program: members({ name: text, run: list(text), version: text, files: list(members({ name: text, digest: text, changed: text })) }),
  date: text, command: text, sample: text, clean: list(text), stories: list(oneStory),
});

/** What the loop tells, by scenario. */
export class Appendix {
  /** @param {any} told */
  constructor(told) {
    this.told = told;
    /** @type {Map<string, Story>} */
    this.stories = new Map(told.stories.map((story) => [story.scenario === "none" ? "" : story.scenario, story]));
  }

  /** @param {string} scenario @returns {Story|null} */
  storyOf(scenario) {
    return this.stories.get(scenario) ?? null;
  }

  /** What is known of the hits of a run besides. @param {string} scenario */
  hitsOf(scenario) {
    const story = this.storyOf(scenario);
    return story === null ? { about: scenario === "" ? this.told.clean : [], state: "" } : { about: story.hits, state: story.state };
  }

  /** The command that makes a run again. @param {string} scenario */
  again(scenario) {
    return `${this.told.command} --try ${quoted(scenario === "" ? "none" : scenario)}`;
  }
}

/** The appendix, checked. @param {string} json */
export function readAppendix(json) {
  return new Appendix(readChecked(json, VERSION_TOLD, appendix, "appendix"));
}

/** A story's words without its verdict, which stands before them. @param {Story} story */
export function wordsOfStory({ verdict, words }) {
  return words.slice(`${verdict}: `.length);
}

const STATES = new Map([
  ["names", "of the changes that weren\u2019t synced yet, the disk keeps those of names, modes and shorter lengths, such as a renamed file, and loses those of contents"],
  ["contents", "of the changes that weren\u2019t synced yet, the disk keeps those of contents, and loses those of names, modes and shorter lengths, such as a renamed file"],
  ["live", "nothing is lost: all that the program did is there, as after a kill of the program alone"],
]);

/** What the power cut did to the changes that were pending. @param {Story} story */
export function cutSentence({ state, pending }) {
  if (state === "live") return `Then ${STATES.get(state)}.`;
  if (pending.length === 0) return "Then the power went. Every change was synced, so nothing was lost by that.";
  if (STATES.has(state)) return `Then the power went: ${STATES.get(state)}.`;
  if (pending.every(({ kept }) => kept === "lost")) return "Then the power went: all changes that weren\u2019t synced yet are lost.";
  return "Then the power went: of the changes that weren\u2019t synced yet, the disk keeps some, and loses the others.";
}
