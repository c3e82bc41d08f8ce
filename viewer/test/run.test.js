import assert from "node:assert/strict";
import { test } from "node:test";
import { campaignOf, readDocument } from "../document.js";
import { descendantsOf, explainCommand, groupByCalls, planWords, wordsOfNumbered } from "../describe.js";
import { Runs, filesOfFaults, foldLines, isFault, linesOf, readRun, runKey } from "../run.js";
import { rowsOf } from "../map.js";
import { rowWords } from "../verdict.js";
import { explained, numbers } from "./made.js";
import { exampleReport, explainedReport, keptReport, reports } from "./reports.js";

const campaignBy = (json) => campaignOf(readDocument(json));
const saved = () => campaignBy(keptReport("save"));

test("plans in words, of the program in the tutorial", () => {
  const campaign = saved();
  const words = (number) => planWords(campaign, campaign.plans[number]);
  assert.equal(words(19), "the 1st fsync fails; the power cut keeps the 1st change asked for");
  assert.equal(wordsOfNumbered(campaign, 19, campaign.told.findings[0].reduced), words(19));
  assert.equal(wordsOfNumbered(campaign, 19, "sys::fsync=1*return"), "the 1st fsync fails");
  assert.equal(words(21), "the program ends at the 1st fsync; the power cut keeps the 1st change asked for");
  assert.equal(words(0), "no fault");
  const onward = JSON.parse(keptReport("save")).about.grown.indexOf("3 1 1*return; 11 2 return");
  assert.equal(words(onward), "the 1st fsync fails; the power cut keeps each change asked for from the 2nd on");
  assert.deepEqual(rowsOf(campaign).rows.map((row) => rowWords(row, campaign.call)),
    ["no fault", "1st open", "2nd open", "1st write", "1st rename", "1st fsync", "2nd fsync"]);
});

test("a plan that grew is told in the order in which its faults act", () => {
  const document = JSON.parse(keptReport("save"));
  const number = document.about.grown.indexOf("2 1 1*return; 2 2 1*panic");
  document.about.grown[number] = "5 1 1*return; 0 1 1*panic";
  const campaign = campaignBy(JSON.stringify(document));
  assert.equal(planWords(campaign, campaign.plans[number]), "the 1st rename fails; the program ends at the 1st open");
  assert.equal(campaign.plans[number].text, "sys::open=1*panic;sys::rename=1*return");
});

const steps = (explained, names) => readRun("", { explained }, names).steps.map(({ point, answer }) => [point, answer]);

test("a run is read from the lines of explain", () => {
  const explained = "verdict unresolved\nhit 1 create 1 go\nhit 2 write 1 return(no space)\nhit 3 write 2 print(x)\nhit 4 create 2 pause\nstopped pause\n"
    + "idle write=return\n";
  const run = readRun("x=return", { explained, left_out: 12 }, ["write", "sync", "create"]);
  assert.deepEqual(run.steps, [
    { point: 2, answer: null }, { point: 0, answer: "return(no space)" }, { point: 0, answer: "print(x)" }, { point: 2, answer: "pause" }]);
  assert.deepEqual([run.scenario, run.more, run.end], ["x=return", 12, "pause"]);
  const read = (text) => readRun("", { explained: text }, []);
  assert.deepEqual([read("verdict pass\n").steps, read("verdict pass\n").end, read("verdict unresolved\nstopped limit\n").end], [[], null, "limit"]);
});

test("names and answers with blanks and line feeds are told apart", () => {
  const names = ["a", "a 1", "x\ny"];
  assert.deepEqual(steps("verdict fail b 1\nhit 1 a 1 1 go\nhit 2 a 1 return(x 2 go)\nhit 3 a 1 2 panic\n", names),
    [[1, null], [0, "return(x 2 go)"], [1, "panic"]]);
  assert.deepEqual(steps("verdict pass\nhit 1 x\ny 1 return(no\nway)\nhit 2 x\ny 2 go\n", names), [[2, "return(no\nway)"], [2, null]]);
  for (const within of ["hit 9 else 1 go", "idle a=return", "stopped limit"]) {
    assert.deepEqual(steps(`verdict pass\nhit 1 a 1 return(x\n${within})\nhit 2 a 2 go\n`, names), [[0, `return(x\n${within})`], [0, null]]);
  }
});

/** The runs of these scenarios, each told by its lines; a third member is how many hits more it has. @param {[string, string, number?][]} told */
function runsOf(...told) {
  const runs = new Runs(["a", "b", "c"]);
  for (const [scenario, lines, left_out] of told) runs.add(1, scenario, { explained: `verdict fail x\n${lines}`, left_out });
  return runs;
}

const NONE = ["", "hit 1 a 1 go\nhit 2 b 1 go\n"];
const A = ["a=1*return", "hit 1 a 1 return\nhit 2 b 1 go\n"];
const B = ["b=1*return", "hit 1 b 1 return\nhit 2 a 1 go\n"];

test("a run stands beside that without its last fault, where it is told, else beside that without faults", () => {
  const beside = (told, ...others) => {
    const runs = runsOf(told, ...others);
    return runs.beside(runs.of(1, told[0]))?.scenario ?? null;
  };
  assert.equal(beside(A), null);
  assert.deepEqual([beside(NONE, A), beside(A, NONE)], [null, ""]);
  const order = (first, last) => ["a=1*return;b=1*return", `hit 1 ${first} 1 return\nhit 2 ${last} 1 return\n`];
  assert.deepEqual([beside(order("a", "b"), NONE, A, B), beside(order("b", "a"), NONE, A, B)], ["a=1*return", "b=1*return"]);
  const going = "hit 1 a 1 return\nhit 2 b 1 return(X)\nhit 3 a 2 go\nhit 4 b 2 return(X)\n";
  assert.equal(beside(["a=1*return;b=return(X)", going], NONE, A), "a=1*return");
  assert.equal(beside(["a=1*return;b=return(X)", going, 3], NONE, A), "", "which fault acted last isn't told");
  assert.equal(beside(["a=1*return;c=1*return", "hit 1 a 1 return\nhit 2 c 1 return\n"], NONE, A), "a=1*return");
  assert.equal(beside(["b=1*panic;c=1*return", "hit 1 c 1 return\nhit 2 b 1 panic\n"], NONE, A, B), "", "nobody told c=1*return");
  assert.equal(beside(["a=1*return;c=2*return", "hit 1 a 1 return\nhit 2 c 1 return\nhit 3 c 2 return\n"], NONE, A), "");
  assert.equal(beside(["a=1*return;c=50%return", "hit 1 a 1 return\nhit 2 c 1 return\n"], NONE, A), "");
  assert.equal(beside(["a=1*return;c=1*return", "hit 1 b 1 go\n"], NONE, A), "", "no fault acted");
});

test("a run stands beside its parent's, where that is told", () => {
  const two = (parent) => ({ explained: "verdict fail x\nhit 1 a 1 return\nhit 2 b 1 return\n", ...(parent ? { parent: { explained: parent } } : {}) });
  const runs = runsOf(NONE, B);
  runs.add(4, "a=1*return;b=1*return", two("verdict pass\nhit 1 a 1 return\nhit 2 b 1 go\nhit 3 c 1 go\n"), "a=1*return");
  const other = runs.beside(runs.of(4, "a=1*return;b=1*return"));
  assert.deepEqual([other.scenario, other.verdict, other.steps.length], ["a=1*return", "pass", 3]);
  assert.deepEqual(runs.of(2, "a=1*return"), other, "the parent's run is told, too");
  runs.add(4, "a=1*return;b=1*return", two(null), "a=1*return");
  assert.equal(runs.beside(runs.of(4, "a=1*return;b=1*return")), other, "a cause that is told again");
  const long = runsOf(NONE);
  long.add(4, "a=1*return;b=1*return", { ...two("verdict pass\nhit 1 a 1 return\n"), left_out: 5 }, "a=1*return");
  assert.equal(long.beside(long.of(4, "a=1*return;b=1*return")).scenario, "a=1*return", "its parent is told, though not all hits are");
  const lacking = runsOf(NONE);
  lacking.add(4, "a=1*return;b=1*return", two(null), "a=1*return");
  lacking.add(5, "c=1*return", null);
  assert.equal(lacking.beside(lacking.of(4, "a=1*return;b=1*return")).scenario, "");
  assert.equal(lacking.has(5, "c=1*return"), false);
});

const looks = (lines) => lines.map(({ here, there, same, fault }) =>
  [here && `${here.ordinal} ${here.point}`, there && `${there.ordinal} ${there.point}`, same ? "same" : fault ? "fault" : ""].map((one) => one ?? "-").join(" | "));

test("hits at the same points stand beside each other, those of one run alone beside nothing, or those of the other alone", () => {
  const hits = (text) => [...text].map((name, index) => [name, index, [...text.slice(0, index + 1)].filter((one) => one === name).length])
    .map(([name, index, ordinal]) => `hit ${index + 1} ${name} ${ordinal} ${name === "c" ? "return" : "go"}\n`).join("");
  const names = ["a", "b", "c", "d", "e"];
  const read = (text) => readRun("x", { explained: `verdict pass\n${hits(text)}` }, names);
  assert.deepEqual(looks(linesOf(read("abcda"), read("abeeda"), names)),
    ["1 a | 1 a | same", "1 b | 1 b | same", "1 c | 1 e | fault", "- | 2 e | ", "1 d | 1 d | same", "2 a | 2 a | same"]);
  assert.deepEqual(looks(linesOf(read("ab"), read("aeb"), names)), ["1 a | 1 a | same", "- | 1 e | ", "1 b | 1 b | same"]);
  assert.deepEqual(looks(linesOf(read("aab"), read("a"), names)), ["1 a | 1 a | same", "2 a | - | ", "1 b | - | "]);
  assert.deepEqual(linesOf(read(""), null, names), []);
});

test("two runs side by side have each of their hits once, in order, and as many pairs as there can be", () => {
  const draw = numbers(3);
  const names = ["a", "b", "c"];
  const drawRun = () => Array.from({ length: draw.below(9) }, () => draw.below(names.length));
  const longest = (one, other) => {
    if (one.length === 0 || other.length === 0) return 0;
    if (one[0] === other[0]) return 1 + longest(one.slice(1), other.slice(1));
    return Math.max(longest(one.slice(1), other), longest(one, other.slice(1)));
  };
  for (let round = 0; round < 300; round += 1) {
    const [one, other] = [drawRun(), drawRun()];
    const lines = linesOf(...[one, other].map((run) => readRun("x", explained(names, run, () => undefined), names)), names);
    const side = (name) => lines.map((line) => line[name]).filter((hit) => hit !== null).map(({ number, point }) => [number, point]);
    assert.deepEqual(side("here"), one.map((point, index) => [index + 1, names[point]]));
    assert.deepEqual(side("there"), other.map((point, index) => [index + 1, names[point]]));
    assert.equal(lines.filter(({ same }) => same).length, longest(one, other), JSON.stringify([one, other]));
    assert.ok(lines.every(({ here, there }) => here !== null || there !== null));
  }
});

test("hits of a file at whose hits a fault acts are told, and never folded", () => {
  const names = ["open@x", "read@x", "read@y", "write"];
  const run = readRun("open@x=1*return", { explained: "verdict pass\nhit 1 open@x 1 return\nhit 2 read@y 1 go\n" }, names);
  const other = readRun("", { explained: "verdict pass\nhit 1 open@x 1 go\nhit 2 read@x 1 go\nhit 3 read@y 1 go\n" }, names);
  const lines = linesOf(run, other, names);
  assert.deepEqual([...filesOfFaults(lines)], ["x"]);
  assert.deepEqual(lines.map(({ here, there }) => [here?.near ?? null, there?.near ?? null]), [[true, true], [null, true], [false, false]]);
  const long = (place) => readRun("x", explained(names, [0, 3, 3, 3, 3, 3, 3, 3, place, 3, 3, 3, 3, 3, 3, 3], (at) => (at === 0 ? "return" : undefined)), names);
  const folds = (place) => foldLines(linesOf(long(place), long(place), names)).filter((piece) => piece.fold).map((piece) => piece.lines.length);
  assert.deepEqual([folds(1), folds(2)], [[5, 5], [13]]);
});

test("a run that is drawn by chance is that of its plan alone", () => {
  assert.equal(runKey(3, "a=1*return"), runKey(4, "a=1*return"));
  assert.notEqual(runKey(3, "a=20%return"), runKey(4, "a=20%return"));
});

test("the run of a finding, beside that of the plan from which its plan grew", () => {
  const campaign = campaignBy(exampleReport("replace_rename_first"));
  const run = campaign.runs.get("replace::sync=1*return;power::keep=3*off->1*return");
  const other = campaign.runs.beside(run);
  assert.equal(other.scenario, "replace::sync=1*return");
  const lines = linesOf(run, other, campaign.names);
  assert.deepEqual(lines.map(({ here, there, same, fault }) => [`${here.ordinal} ${here.point}`, here.answer, there?.point ?? null, same, fault]), [
    ["1 replace::create", null, "replace::create", true, false], ["1 replace::write", null, "replace::write", true, false],
    ["2 replace::write", null, "replace::write", true, false], ["1 replace::rename", null, "replace::rename", true, false],
    ["1 replace::sync", "return", "replace::sync", true, true], ["1 power::keep", null, "power::keep", true, false],
    ["2 power::keep", null, "power::keep", true, false], ["3 power::keep", null, "power::keep", true, false],
    ["4 power::keep", "return", "power::keep", false, true]]);
});

test("each run first differs from the one beside it at a fault", () => {
  const looked = { "": 0, less: 0 };
  for (const { name, json } of reports()) {
    const { runs, names } = campaignBy(json);
    for (const run of [...runs.told.keys()].filter((key) => !key.includes("%")).map((key) => runs.get(key))) {
      const other = runs.beside(run);
      const first = other && linesOf(run, other, names).find((line) => !line.same);
      if (!first) continue;
      assert.ok(first.fault, `${name} ${run.scenario} beside ${other.scenario}`);
      looked[other.scenario === "" ? "" : "less"] += 1;
    }
  }
  assert.ok(looked[""] > 100 && looked.less >= 5, JSON.stringify(looked));
});

test("long stretches that are the same are folded, faults never", () => {
  const hit = (number, answer) => ({ number, point: "a", ordinal: number, answer });
  const line = (number, fault = false) => ({ here: hit(number, fault ? "return" : null), there: null, same: true, fault });
  const lines = [...Array.from({ length: 8 }, (_, index) => line(index + 1)), line(9, true), line(10), line(11)];
  const pieces = foldLines(lines);
  assert.deepEqual(pieces.map((piece) => (piece.fold ? piece.lines.length : piece.line.here.number)), [6, 7, 8, 9, 10, 11]);
  assert.deepEqual(foldLines([]), []);
});

test("what a program outside does, by its answers: LevelDB deletes a log that it could not open", () => {
  const { runs, names, told } = campaignBy(explainedReport("leveldb"));
  const [{ number, reduced }] = told.findings;
  assert.equal(reduced, "sys::open@db/000003.log=1*return");
  const run = runs.of(number, reduced);
  const lines = linesOf(run, runs.beside(run), names);
  const log = lines.filter(({ here, there }) => here?.near || there?.near);
  assert.deepEqual(looks(log), [
    "1 sys::open@db/000003.log | 1 sys::open@db/000003.log | fault", "1 sys::open@db/000005.log | 1 sys::read@db/000003.log | ",
    "1 sys::unlink@db/000003.log | 1 sys::unlink@db/000003.log | same"]);
  assert.deepEqual([run.verdict, runs.beside(run).verdict], ["fail lost", "pass"]);
});

test("a run that answers tell stands beside its parent's", () => {
  const { runs, told } = campaignBy(explainedReport("save"));
  const beside = told.growth.causes.map(({ number, scenario }) => runs.beside(runs.of(number, scenario)));
  assert.deepEqual(beside.map(({ scenario, verdict }) => [scenario, verdict]), [["sys::fsync=1*return", "pass"], ["sys::fsync=1*panic", "pass"]]);
});

test("which answers are faults", () => {
  assert.deepEqual(["return", "return(ENOSPC)", "panic", "pause"].map(isFault), [true, true, true, true]);
  assert.deepEqual([null, "go", "print(x)", "delay(3)"].map(isFault), [false, false, false, false]);
});

test("causes are grouped by their calls", () => {
  const groups = groupByCalls(["a=1*return;b=1*panic", "b=1*return", "a=2*off->1*return;b=return", "b=panic->1*return"].map((scenario) => ({ scenario })));
  assert.deepEqual(groups.map(({ points, items }) => [points, items.length]), [[["a", "b"], 2], [["b"], 2]]);
});

test("how many plans grew from one", () => {
  const campaign = saved();
  const grew = (number) => {
    const known = campaign.plans.filter((plan) => {
      for (let at = plan.parent; at !== null; at = campaign.plans[at].parent) if (at === number) return true;
      return false;
    });
    return { plans: known.length, fail: known.filter((plan) => plan.verdict === "fail").length };
  };
  for (const plan of campaign.plans) assert.deepEqual(descendantsOf(campaign, plan.number), grew(plan.number));
});

test("a command tells a plan's run again", () => {
  assert.equal(explainCommand({ told_by: "target" }, { number: 7, text: "a=return" }), "paklour explain --plan 7 FILE");
  assert.equal(explainCommand({ told_by: "answers" }, { number: 7, text: "a=1*off->return" }), "paklour report --explain 'a=1*off->return' FILE < ANSWERS");
  assert.equal(explainCommand({ told_by: "answers" }, { number: 0, text: "" }), "paklour report --explain none FILE < ANSWERS");
});
