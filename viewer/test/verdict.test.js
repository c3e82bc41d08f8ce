import assert from "node:assert/strict";
import { test } from "node:test";
import { campaignOf, readDocument } from "../document.js";
import { failuresByCode, headline, limits, tried, wholeness } from "../verdict.js";
import { reports, keptReport } from "./reports.js";

const CENSUS = [{ point: "libc::write", hits: 2 }, { point: "libc::fsync", hits: 1 }, { point: "power::keep", hits: 0 }];
const FAIL = { number: 2, verdict: "fail", code: "lost", scenario: "libc::write=1*return" };
const after = (parent, ...faults) => faults.map((fault) => `${parent}; ${fault}`);
const LEVELS = [
  "", "0 1 1*return", "0 1 1*panic", "0 2 1*return", "0 2 1*panic", "1 1 1*return", "1 1 1*panic",
  ...after("0 1 1*return", "0 2 1*return", "0 2 1*panic", "1 1 1*return", "1 1 1*panic", "2 1 1*return"), ...after("0 1 1*panic", "2 1 1*return"),
  ...after("0 2 1*return", "1 1 1*return", "1 1 1*panic", "2 1 1*return"), ...after("0 2 1*panic", "2 1 1*return", "2 2 1*return"),
  ...after("1 1 1*return", "2 1 1*return"), ...after("1 1 1*panic", "2 1 1*return"),
];
const ONWARD = [...after("0 1 1*return", "0 2 return", "1 1 return", "2 1 return"), ...after("0 2 1*return", "1 1 return", "2 1 return")];

/** A document of 20 plans, with these members in place of others. */
function campaign(members, growth = {}, told = {}) {
  const about = {
    program_version: "0.3.1", told_by: "target", command: "", settings: "", storms: [], listed: [], grown: growth ? LEVELS : [], clean_run: null,
    finding_runs: [], cause_runs: [], ...told,
  };
  const document = {
    version: 1, label: "x", seed: "1", clean: { verdict: "pass", code: null }, census: CENSUS, counts: { plans: 20, pass: 20, fail: 0, unresolved: 0 },
    not_passed: [], findings: [], growth: growth && { depth: 2, levels: [1, 6, 13], onward: 0, beyond: 0, reached: CENSUS, causes: [], ...growth }, about,
    ...members,
  };
  return campaignOf(readDocument(JSON.stringify(document)));
}

const finding = { number: 2, code: "lost", scenario: "x=return", reduced: "x=return", tests: 1 };
const one = { counts: { plans: 20, pass: 19, fail: 1, unresolved: 0 }, not_passed: [FAIL], findings: [finding] };

test("the headline", () => {
  assert.equal(headline(campaign({})), "None of 20 plans fails.");
  assert.equal(headline(campaign(one)), "1 of 20 plans fails.");
  const ended = { counts: { plans: 20, pass: 19, fail: 0, unresolved: 1 }, not_passed: [{ ...FAIL, verdict: "unresolved", code: null }] };
  assert.equal(headline(campaign(ended)), "None of 20 plans fails; 1 run was ended without a verdict.");
  const already = campaign({ ...one, clean: { verdict: "fail", code: "lost" } });
  assert.equal(headline(already), "The run without faults fails already: 1 of 20 plans fails.");
});

test("what was tried, with a depth", () => {
  const first = "Tried was each behaviour in which at most 2 faults act.";
  assert.deepEqual(tried(campaign({})),
    [`${first} A fault is a failure or the end of the program at any point that is hit, or a pending change that the power cut keeps.`]);
  const further = { storms: ["x=return"], listed: ["x=panic", "x=pause"], grown: [...LEVELS, ...ONWARD] };
  assert.deepEqual(tried(campaign({ counts: { plans: 28, pass: 28, fail: 0, unresolved: 0 } }, { onward: 5 }, further)).slice(1), [
    "In 5 plans more the last of 2 faults acts at each later hit of its point too.", "1 storm has faults that were drawn by the seed.",
    "2 scenarios were listed by the settings."]);
  const one = { counts: { plans: 1, pass: 1, fail: 0, unresolved: 0 } };
  assert.deepEqual(tried(campaign(one, { depth: 0, levels: [1] }, { grown: [""] })), ["Tried was the run without faults, and no fault."]);
  assert.deepEqual(tried(campaign(one, { levels: [1, 0, 0] }, { grown: [""] })), ["Tried was the run without faults, and no fault."]);
});

test("the kinds that were tried follow from the plans that grew", () => {
  const census = [...CENSUS, { point: "libc::open", hits: 1 }, { point: "libc::link", hits: 0 }];
  const at = (place, ...kinds) => kinds.map((kind) => `${place} 1 ${kind}`);
  const grown = ["", ...at(0, "1*return(ENOSPC)", "1*return(HALF)", "1*panic"), ...at(1, "1*return", "1*panic"), ...at(3, "1*return", "1*panic"),
    ...at(2, "1*return"), "1 1 return(EIO)"];
  const counts = { plans: 10, pass: 10, fail: 0, unresolved: 0 };
  assert.deepEqual(tried(campaign({ census, counts }, { depth: 1, levels: [1, 8], onward: 1 }, { grown })), [
    "Tried was each behaviour in which at most one fault acts. A fault is a full disk (ENOSPC), its first half alone or the end of the program at write; "
      + "a failure or the end of the program at each other point that is hit; or a pending change that the power cut keeps.",
    "In 1 plan more the fault acts at each later hit of its point too."]);
});

test("what was tried, without a depth", () => {
  const counts = { plans: 22, pass: 22, fail: 0, unresolved: 0 };
  assert.deepEqual(tried(campaign({ counts }, null, { storms: Array(4).fill("x=return"), listed: ["x=panic", "x=pause"] })), [
    "Tried was one fault at each of 3 hits of the run without faults: a failure, failures from then on, and the end of the program.",
    "In 6 plans more two of these hits have a fault: both fail, or the program ends at the second.",
    "4 storms have faults that were drawn by the seed.", "2 scenarios were listed by the settings."]);
});

test("whole or not", () => {
  const told = (members, growth) => wholeness(campaign(members, growth));
  assert.deepEqual(told({}), { whole: true, sentences: ["Whole: no run has a hit left for one fault more, so more such faults show nothing else."] });
  assert.deepEqual(told({}, { beyond: 1200 }), { whole: false, sentences: ["1\u202f200 plans with one fault more are left for the next depth."] });
  const unresolved = [2, 3].map((number) => ({ ...FAIL, number, verdict: "unresolved", code: null }));
  const ended = { counts: { plans: 20, pass: 18, fail: 0, unresolved: 2 }, not_passed: unresolved };
  assert.deepEqual(told(ended), { whole: false, sentences: ["Whole but for 2 runs that were ended: what would have come after that isn\u2019t tried."] });
  assert.deepEqual(told({ ...ended, unmet: 1 }, { beyond: 1, unseen: 2 }), { whole: false, sentences: [
    "1 plan with one fault more is left for the next depth.", "Besides, 2 runs were ended: what would have come after that isn\u2019t known.",
    "Nobody knows the hits of 2 ended runs: nothing grew from there.", "1 plan passes without meeting each of its faults."] });
  assert.deepEqual(told({ counts: { plans: 10, pass: 10, fail: 0, unresolved: 0 } }, null),
    { whole: false, sentences: ["Without a depth, hits that only a fault leads to, as those of clean-up, got no fault of their own."] });
});

test("no report without a depth is called whole, and none with runs that were ended", () => {
  for (const { name, json } of reports()) {
    const document = JSON.parse(json);
    const { whole, sentences } = wholeness(campaignOf(readDocument(json)));
    assert.equal(whole, document.growth !== null && document.growth.beyond === 0 && document.counts.unresolved === 0, name);
    assert.equal(sentences[0].startsWith("Whole:"), whole, name);
  }
});

test("each number of the headline is the document's", () => {
  for (const { name, json } of reports()) {
    const document = JSON.parse(json);
    const campaign = campaignOf(readDocument(json));
    const numbers = (headline(campaign).match(/\d[\d\u202f]*/g) ?? []).map((text) => Number(text.replace(/\u202f/g, "")));
    const { plans, fail, unresolved } = document.counts;
    const known = new Set([plans, fail, unresolved, campaign.codes.length]);
    assert.ok(numbers.every((number) => known.has(number)), `${name}: ${headline(campaign)}`);
    assert.equal(failuresByCode(campaign).reduce((sum, [, count]) => sum + count, 0), fail, name);
  }
});

test("a program of one's own is told by answers", () => {
  assert.deepEqual(limits(campaignOf(readDocument(keptReport("save")))), [
    "This rests on recorded runs: it holds of a program that does the same whenever its calls come to the same.",
    "No campaign tries other orders of threads, other times, other kinds of faults or other work for the program."]);
  assert.equal(limits(campaign({})).length, 1);
});
