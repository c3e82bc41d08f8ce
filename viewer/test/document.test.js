import assert from "node:assert/strict";
import { readFileSync } from "node:fs";
import { test } from "node:test";
import { ReadError, campaignOf, faultsOf, filterPlans, levelKeyOf, readDocument } from "../document.js";
import { drawn, makeDocument, numbers } from "./made.js";
import { explainedReport, keptReport, reports } from "./reports.js";
import { breaches } from "./schema.js";

const schema = JSON.parse(readFileSync(new URL("../../docs/report.schema.json", import.meta.url), "utf8"));
const whole = () => makeDocument({ ...drawn(4), depth: 3, most: 400, longest: 6, told_by: "target" }).document;

test("each document keeps the schema, and is read", () => {
  const kept = ["save", "leveldb"].flatMap((name) => [keptReport(name), explainedReport(name)].map((json) => ({ name, json })));
  for (const { name, json } of [...reports(), ...kept]) {
    const document = JSON.parse(json);
    assert.deepEqual(breaches(schema, document), [], name);
    readDocument(json);
  }
});

test("each member that the schema asks for is needed, and one that it doesn't have is passed over", () => {
  const told = readDocument(JSON.stringify({ ...whole(), later: 1 }));
  assert.equal(told.later, 1);
  for (const name of schema.required) {
    const { [name]: left, ...document } = whole();
    assert.throws(() => readDocument(JSON.stringify(document)), ReadError, name);
  }
  for (const name of schema.properties.about.required) {
    const { about, ...document } = whole();
    const { [name]: left, ...less } = about;
    assert.throws(() => readDocument(JSON.stringify({ ...document, about: less })), (error) => error.problems.includes(`document.about.${name} lacks`), name);
  }
});

test("a document that lacks something, or contradicts itself, is refused with what is wrong", () => {
  const refused = (change, problem) => {
    const document = whole();
    change(document);
    assert.throws(() => campaignOf(readDocument(JSON.stringify(document))), (error) => error instanceof ReadError && error.problems.includes(problem), problem);
  };
  refused((document) => { document.version = 2; }, "the document has version 2, and this page shows version 1");
  refused((document) => { delete document.label; }, "document.label lacks");
  refused((document) => { document.counts.pass = -1; }, "document.counts.pass isn't a whole number from 0");
  refused((document) => { document.counts.pass += 1; }, "the counts don't add up");
  refused((document) => { document.about.grown.pop(); }, "about.grown doesn't have as many plans as grew");
  for (const text of ["99 1 1*return", "0 1 2*return", "0 1 panic", "0 1 1*return; 0 9 1*return; 0 10 1*return", "0 1", ""]) {
    refused((document) => { document.about.grown[2] = text; }, "about.grown[2] isn't a plan that grew");
  }
  refused((document) => { document.about.grown[0] = "0 1 1*return"; }, "about.grown[0] isn't a plan that grew");
  refused((document) => { document.growth.causes.push({ number: document.counts.plans, code: "x", scenario: "" }); }, "a plan has a number that no plan has");
  refused((document) => { document.about.storms.push("x=return"); }, "the parts of the list don't add up");
  refused((document) => { document.about.finding_runs.push({ explained: "" }); }, "about.finding_runs has more runs than there are findings");
  refused((document) => { document.about.cause_runs.push({ explained: "" }); }, "about.cause_runs has more runs than there are causes");
  refused((document) => { document.about.told_by = "nobody"; }, "document.about.told_by isn't target or answers");
  refused((document) => { document.not_passed.push({ number: 0, verdict: "fail", code: "x", scenario: "" }); },
    "not_passed doesn't have as many plans as are counted");
  assert.throws(() => readDocument("{"), ReadError);
  assert.throws(() => readDocument("[]"), ReadError);
});

test("runs are the document's, null where nobody told one, each beside its parent's where that is told", () => {
  const looked = { told: 0, lacking: 0, beside: 0 };
  for (const { name, json } of reports()) {
    const { told: { findings, growth, about }, runs, plans } = campaignOf(readDocument(json));
    const items = [...findings.map(({ number, reduced }, at) => [number, reduced, about.finding_runs[at]]),
      ...(growth?.causes ?? []).map(({ number, scenario }, at) => [number, scenario, about.cause_runs[at]])].filter(([, , run]) => run !== undefined);
    for (const [number, scenario, run] of items) {
      if (run === null) looked.lacking += 1;
      else {
        assert.equal(runs.of(number, scenario).verdict, run.explained.split("\n")[0].slice("verdict ".length), name);
        looked.told += 1;
      }
      if (!run?.parent) continue;
      assert.equal(runs.beside(runs.of(number, scenario)).scenario, plans[plans[number].parent].text, name);
      looked.beside += 1;
    }
  }
  assert.ok(looked.told > 100 && looked.lacking > 5 && looked.beside > 20, JSON.stringify(looked));
});

test("a run that isn't one is refused, and so is a parent that isn't", () => {
  const refused = (run, problem) => {
    const document = whole();
    document.about.finding_runs[0] = run;
    assert.throws(() => readDocument(JSON.stringify(document)), (error) => error.problems.includes(`document.about.finding_runs[0]${problem}`), problem);
  };
  refused({}, ".explained lacks");
  refused("hit 1", " isn't an object");
  refused({ explained: "", left_out: -1 }, ".left_out isn't a whole number from 0");
  refused({ explained: "", parent: null }, ".parent isn't an object");
  refused({ explained: "", parent: { explained: 1 } }, ".parent.explained isn't a text");
});

test("verdicts, counts, levels and parents are the document's", () => {
  for (const { name, json, texts } of reports()) {
    const document = JSON.parse(json);
    const campaign = campaignOf(readDocument(json));
    assert.equal(campaign.parts.reduce((sum, part) => sum + part.count, 0), texts.length, name);
    const told = new Map(document.not_passed.map((item) => [item.number, item]));
    for (const plan of campaign.plans) {
      assert.equal(plan.verdict, told.get(plan.number)?.verdict ?? "pass", name);
      assert.equal(plan.code, told.get(plan.number)?.code ?? null, name);
    }
    for (const verdict of ["pass", "fail", "unresolved"]) {
      assert.equal(campaign.plans.filter((plan) => plan.verdict === verdict).length, document.counts[verdict], name);
    }
    const sizeOf = (level) => campaign.parts.find((part) => part.name === "level" && part.level === level)?.count ?? 0;
    (document.growth?.levels ?? []).forEach((size, level) => assert.equal(sizeOf(level), size, name));
  }
});

test("a plan has its parent's faults and one more, and its level tells how many", () => {
  for (const { name, json } of reports()) {
    const campaign = campaignOf(readDocument(json));
    for (const plan of campaign.plans.filter((one) => one.fault)) {
      const faults = faultsOf(campaign, plan);
      assert.deepEqual(faultsOf(campaign, campaign.plans[plan.parent]), faults.slice(0, -1), name);
      assert.equal(faults.length, plan.part.level, `${name} ${plan.number}`);
    }
  }
});

/** Whether a scenario names a point, by its text alone. */
function names(scenario, point) {
  return scenario.split(";").some((entry) => entry.split("=")[0] === point && /return|panic|pause|print|delay|sleep/.test(entry.split("=").slice(1).join("=")));
}

test("filters give what a straightforward search gives", () => {
  const draw = numbers(9);
  for (const { name, json, texts } of reports()) {
    const document = JSON.parse(json);
    const campaign = campaignOf(readDocument(json));
    const numbersOf = campaign.plans.map((plan) => plan.number);
    for (let round = 0; round < 6; round += 1) {
      const filter = {
        verdict: draw.among(["", "fail", "pass", "unresolved", ...campaign.codes.map((code) => `fail ${code}`)]),
        point: draw.among(["", ...campaign.names]), level: draw.among(["", "0", "1", "2", "onward", "storms"]),
        text: draw.among(["", "panic", "2*OFF", "7", "->"]),
      };
      const told = new Map(document.not_passed.map((item) => [item.number, item.code === null ? item.verdict : `${item.verdict} ${item.code}`]));
      const wanted = numbersOf.filter((number) => {
        const verdict = told.get(number) ?? "pass";
        return (filter.verdict === "" || verdict === filter.verdict || verdict.split(" ")[0] === filter.verdict)
          && (filter.point === "" || names(texts[number], filter.point))
          && (filter.level === "" || filter.level === levelKeyOf(campaign.plans[number]))
          && [String(number), texts[number].toLowerCase()].some((one) => one.includes(filter.text.toLowerCase()));
      });
      assert.deepEqual(filterPlans(campaign, filter).map((plan) => plan.number), wanted, `${name} ${JSON.stringify(filter)}`);
    }
  }
});

test("levels are those that a made campaign drew", () => {
  for (let seed = 0; seed < 60; seed += 1) {
    const { document, levels } = makeDocument(drawn(seed));
    const campaign = campaignOf(readDocument(JSON.stringify(document)));
    for (const plan of campaign.plans) assert.equal(levelKeyOf(plan), levels[plan.number], `made ${seed}, plan ${plan.number}`);
  }
});

test("a document without any plan, and one of none but the run without faults, is read", () => {
  const none = {
    version: 1, label: "", seed: "0", clean: { verdict: "pass", code: null }, census: [], counts: { plans: 0, pass: 0, fail: 0, unresolved: 0 },
    not_passed: [], findings: [], growth: null,
    about: {
      program_version: "0.3.1", told_by: "answers", command: "", settings: "", storms: [], listed: [], grown: [], clean_run: null, finding_runs: [],
      cause_runs: [],
    },
  };
  assert.deepEqual(campaignOf(readDocument(JSON.stringify(none))).plans, []);
  const one = { ...none, counts: { ...none.counts, plans: 1, pass: 1 } };
  assert.deepEqual(campaignOf(readDocument(JSON.stringify(one))).plans.map((plan) => [plan.number, plan.text, levelKeyOf(plan)]), [[0, "", "0"]]);
});
