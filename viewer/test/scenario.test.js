import assert from "node:assert/strict";
import { test } from "node:test";
import { campaignOf, readDocument } from "../document.js";
import { clausesOf, parseScenario, parseTerm, sharesOf, spell, spellWith } from "../scenario.js";
import { numbers } from "./made.js";
import { reports } from "./reports.js";

test("a term has a percentage, a count, a task and an argument", () => {
  assert.deepEqual(parseTerm("20%2*return(a(b)c)"), { percent: "20", count: 2, task: "return", argument: "a(b)c" });
  assert.deepEqual(parseTerm("99.9%yield"), { percent: "99.9", count: null, task: "yield", argument: null });
  for (const wrong of ["", "fail", "return(", "return)", "-1*return", "1.12345%return", "2x*return"]) assert.equal(parseTerm(wrong), null, wrong);
});

test("a scenario has entries; blanks count for nothing, a text that is none has no entries", () => {
  assert.deepEqual(parseScenario("none"), []);
  assert.deepEqual(parseScenario(""), []);
  assert.deepEqual(parseScenario(" a = 1*off -> return ; ; b=panic").map((entry) => [entry.point, entry.terms.length]), [["a", 2], ["b", 1]]);
  for (const wrong of ["a", "=return", "a=", "a=return->", "a=b=c"]) assert.equal(parseScenario(wrong), null, wrong);
});

test("clauses say at which hits a term acts", () => {
  const told = (text) => clausesOf(text).map(({ point, term, first, last }) => [point, term.task, first, last]);
  assert.deepEqual(told("a=2*off->1*return"), [["a", "return", 3, 3]]);
  assert.deepEqual(told("a=1*return->1*off->2*panic;b=3*off->return"), [["a", "return", 1, 1], ["a", "panic", 3, 4], ["b", "return", 4, Infinity]]);
  assert.deepEqual(told("a=0*return->1*panic"), [["a", "panic", 1, 1]]);
  assert.deepEqual(told("a=20%2*return->10%panic"), [["a", "drawn", 1, Infinity]]);
});

test("faults are spelled with the hits between them, points in the catalogue's order", () => {
  const faults = [{ point: 1, hit: 2, kind: "1*return" }, { point: 0, hit: 5, kind: "return" }, { point: 0, hit: 1, kind: "1*panic" }];
  assert.equal(spell(faults, ["a", "b"]), "a=1*panic->3*off->return;b=1*off->1*return");
  assert.equal(spell([], ["a"]), "");
});

test("one fault more, and the faults together, are spelled the same", () => {
  const draw = numbers(7);
  const names = ["a", "b", "c", "d"];
  for (let round = 0; round < 400; round += 1) {
    const hits = new Map();
    const fault = () => {
      const point = draw.below(names.length);
      hits.set(point, (hits.get(point) ?? 0) + 1 + draw.below(3));
      return { point, hit: hits.get(point), kind: draw.among(["1*return", "1*panic", "return"]) };
    };
    const faults = Array.from({ length: 1 + draw.below(6) }, fault);
    for (let at = 0; at < faults.length; at += 1) {
      const [added, ...others] = [faults[at], ...faults.filter((_, index) => index !== at)];
      assert.equal(spellWith(sharesOf(others, names), added, names), spell(faults, names), JSON.stringify(faults));
    }
  }
});

test("each plan of each report is spelled as the program lists it", () => {
  for (const { name, json, texts } of reports()) {
    const campaign = campaignOf(readDocument(json));
    for (const plan of campaign.plans) assert.equal(plan.text, texts[plan.number], `${name}, plan ${plan.number}`);
  }
});
