import assert from "node:assert/strict";
import { test } from "node:test";
import { ReadError, campaignOf, readDocument } from "../document.js";
import { hitsOf, linesOf } from "../run.js";
import { cutSentence, readAppendix, wordsOfStory } from "../told.js";
import { keptAppendix, keptReport } from "./reports.js";

const kept = () => readAppendix(keptAppendix("readme"));

test("the stories are found by their scenarios, and the words are those of the loop behind the verdict", () => {
  const story = kept().storyOf("sys::fsync=1*return");
  assert.equal(story.words, "fail torn: the 1st sys::fsync (note) fails, the pending changes of names are kept");
  assert.equal(wordsOfStory(story), "the 1st sys::fsync (note) fails, the pending changes of names are kept");
  assert.equal(kept().storyOf("sys::fsync=2*return"), null);
});

test("each finding and each cause of a kept campaign has a story", () => {
  for (const name of ["readme", "leveldb"]) {
    const told = readDocument(keptReport(name));
    const appendix = readAppendix(keptAppendix(name));
    const scenarios = [...told.findings.map(({ reduced }) => reduced), ...told.growth.causes.map(({ scenario }) => scenario)];
    assert.ok(scenarios.length > 1);
    for (const scenario of scenarios) assert.match(appendix.storyOf(scenario).words, /^fail (torn|lost): the 1st sys::/);
  }
});

test("the command makes any run again", () => {
  assert.equal(kept().again("sys::fsync=2*off->1*return"), "paklour-loop saving --try 'sys::fsync=2*off->1*return'");
  assert.equal(kept().again(""), "paklour-loop saving --try none");
  assert.equal(kept().storyOf("sys::fsync=1*return").again, kept().again("sys::fsync=1*return"));
});

test("what the disk kept goes by the state of the power cut", () => {
  const told = (state, ...changes) => cutSentence({ state, pending: changes.map((word) => ({ what: "write a", kept: word })) });
  assert.match(told(""), /Every change was synced/);
  assert.match(told("", "lost", "lost"), /all changes that weren\u2019t synced yet are lost\.$/);
  assert.match(told("", "lost", "kept"), /the disk keeps some, and loses the others\.$/);
  assert.match(told("names", "kept"), /the disk keeps those of names.* and loses those of contents\.$/);
  assert.match(told("contents", "kept"), /the disk keeps those of contents, and loses those of names/);
  assert.match(told("live", "kept"), /^Then nothing is lost/);
  assert.match(told("live"), /^Then nothing is lost/, "no power went");
});

test("hits have their files, or what the power cut asks for, and whether that is there in the state that fails", () => {
  const { runs, names } = campaignOf(readDocument(keptReport("readme")));
  const appendix = kept();
  const run = runs.of(11, "sys::fsync=1*return");
  const lines = linesOf(run, runs.beside(run), names, (scenario) => appendix.hitsOf(scenario));
  assert.deepEqual(lines.map(({ here }) => here?.about), [".", "new", "new", "note", "note", "rename new -> note, and all before it", "create new"]);
  assert.deepEqual(lines.map(({ here }) => here?.kept).slice(5), [true, true]);
  assert.deepEqual(lines.slice(0, 6).map(({ there }) => there?.about), [".", "new", "new", "note", "note", "."], "the run without faults syncs the folder");
  assert.deepEqual(lines.filter(({ here }) => here?.near).map(({ here }) => here.point), ["sys::rename", "sys::fsync"], "the file of the fault");
});

test("a state of its own is that of the last power cut, and says of each hit there whether it has what is asked for", () => {
  const about = ["create a", "a", "unlink b, alone", "length of a 5", "block 0 of a as after write 1"];
  const run = (more) => ({ scenario: "", verdict: "pass", steps: [0, 1, 0, 0, 0].map((point) => ({ point, answer: null })), more, end: null });
  const kept = (state, more = 0) => hitsOf(run(more), ["power::keep", "sys::write"], { about, state }).map((hit) => hit.kept);
  const [no, none] = [undefined, [undefined, undefined, undefined, undefined, undefined]];
  assert.deepEqual(kept("names"), [no, no, true, false, false]);
  assert.deepEqual(kept("contents"), [no, no, false, true, true]);
  assert.deepEqual(kept("live"), [no, no, true, true, true]);
  for (const state of ["", "lasting"]) assert.deepEqual(kept(state), none, "the scenario says it");
  assert.deepEqual(kept("names", 3), none, "the last hits aren't told");
});

test("an appendix that isn't one is refused, and says what is wrong", () => {
  const good = JSON.parse(keptAppendix("readme"));
  const wrong = [
    ["{", /no JSON/], ["null", /isn't an object/], [JSON.stringify({ ...good, version: 2 }), /version 2/], [JSON.stringify({ ...good, date: 1 }), /date isn't a text/],
    [JSON.stringify({ ...good, sample: null }), /sample isn't a text/],
    [JSON.stringify({ ...good, stories: [{ ...good.stories[0], judge: null }] }), /stories\[0\]\.judge isn't a list/],
  ];
  for (const [json, words] of wrong) assert.throws(() => readAppendix(json), (error) => error instanceof ReadError && words.test(error.message));
});
