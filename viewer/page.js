// Draws the page: what came of a campaign, from its document.
import { descendantsOf, explainCommand, groupByCalls, planWords, wordsOfNumbered } from "./describe.js";
import { ReadError, campaignOf, filterPlans, levelKeyOf, loweredTexts, readDocument } from "./document.js";
import { drawSome, element, markIcon, preformatted, section } from "./dom.js";
import { MapView } from "./mapview.js";
import { markOf } from "./marks.js";
import { filesOfFaults, foldLines, isFault, linesOf } from "./run.js";
import { KEEP, clausesOf } from "./scenario.js";
import { drawAgainCommand, drawStory } from "./story.js";
import { readAppendix, wordsOfStory } from "./told.js";
import { failuresByCode, headline, limits, partWords, rowWords, tried, wholeness } from "./verdict.js";
import { UNDONE, answerWords, counted, fileWords, grouped, listed, ordinal, sentence, shown } from "./words.js";

/** @typedef {import("./document.js").Plan} Plan */

const SHOWN_PLANS = 50;
const SHOWN_CAUSES = 10;
const KEYS = "Arrow keys lead from plan to plan, Home and End along a line, Page Up and Page Down further; Enter tells more of a plan.";

/** @param {{verdict: string, code: string|null}} plan */
function verdictWords({ verdict, code }) {
  return code === null ? verdict : `${verdict} ${code}`;
}

/** @param {any} campaign @param {{verdict: string, code: string|null}} plan */
function verdictMark({ codes }, plan) {
  return element("span", { class: "verdict" }, markIcon(markOf(plan, codes)), verdictWords(plan));
}

/** @param {number} number */
function planLink(number) {
  return element("a", { href: `#plan-${number}` }, `plan ${number}`);
}

/** @param {string} text */
function scenarioCode(text) {
  return element("code", { class: "scenario" }, text === "" ? "none" : text);
}

// ---- the verdict

/** What the page is about. @param {any} campaign */
function titleOf({ told, appendix }) {
  return appendix?.told.title ?? told.label;
}

/** @param {any} campaign @returns {HTMLElement[]} */
function drawProgram({ told, appendix }) {
  if (!appendix) return [];
  const { title, program: { name, run, version } } = appendix.told;
  const command = run.length > 0 ? ["Run as ", element("code", {}, run[0]), run.length > 1 ? " \u2026 " : ". "] : [];
  return [element("p", { class: "muted" }, version === "" ? null : `Version: ${version}. `, ...command,
    title === told.label ? `Harness: ${name}.` : `Campaign: ${told.label}.`)];
}

/** The story of a scenario, or null. @param {any} campaign @param {string} scenario */
function storyOf({ appendix }, scenario) {
  return appendix?.storyOf(scenario) ?? null;
}

/**
 * What a plan or a scenario does: as the loop says it, or else by the names of the points.
 * @param {any} campaign
 * @param {number} number
 * @param {string} scenario
 */
function wordsOf(campaign, number, scenario) {
  const story = storyOf(campaign, scenario);
  return sentence(story ? wordsOfStory(story) : wordsOfNumbered(campaign, number, scenario));
}

/** @param {any} campaign */
function drawHeader(campaign) {
  const { told, appendix, problems } = campaign;
  const { sentences, whole } = wholeness(campaign);
  const { fail, unresolved } = told.counts;
  const ways = failuresByCode(campaign).map(([code, count]) =>
    element("li", {}, markIcon(markOf({ verdict: "fail", code }, campaign.codes)), `${code}: ${counted(count, "plan")}`));
  return element("header", {},
    element("p", { class: "kind" }, appendix ? `Paklour report, ${appendix.told.date}` : "Paklour report"),
    element("h1", {}, titleOf(campaign)),
    ...drawProgram(campaign),
    element("div", { class: `outcome ${fail > 0 ? "fails" : unresolved > 0 ? "ended" : "passes"}` },
      element("p", { class: "headline" }, headline(campaign)),
      ways.length > 0 ? element("ul", { class: "ways" }, ...ways) : null),
    element("p", {}, ["A plan is one run of the program, with its faults.", ...tried(campaign)].join(" ")),
    element("p", { class: whole ? "whole" : "open" }, sentences.join(" ")),
    appendix && appendix.told.sample !== "" ? element("p", { class: "open" }, appendix.told.sample) : null,
    element("p", { class: "muted" }, limits(campaign).join(" ")),
    problems.length > 0 ? element("p", {}, `What the loop adds to this page can\u2019t be read: ${problems.slice(0, 3).join("; ")}.`) : null);
}

/** Links to the sections that there are. @param {HTMLElement[]} sections */
function drawContents(sections) {
  const links = sections.map((one) => element("li", {}, element("a", { href: `#${one.id}` }, one.querySelector("h2").textContent)));
  return element("nav", { "aria-label": "Contents" }, element("ul", {}, ...links));
}

// ---- runs

/** @param {(point: string) => string} call @param {import("./run.js").Hit|null} hit */
function drawHit(call, hit) {
  if (hit === null) return element("div", { class: "hit muted" }, "\u2013");
  const answer = answerWords(hit.point, hit.kept ? "return" : hit.kept === false ? null : hit.answer, hit.about ?? "");
  const about = hit.about === undefined ? "" : ` (${fileWords(hit.point === KEEP ? hit.about.replace(UNDONE, "") : hit.about)})`;
  const name = element("span", {}, `${ordinal(hit.ordinal)} ${call(hit.point)}${about}`);
  return element("div", { class: hit.near ? "hit near" : "hit" }, name, ...(answer === null ? [] : [" ", element(isFault(hit.answer) ? "b" : "span", {}, answer)]));
}

/** @param {(point: string) => string} call @param {import("./run.js").Line} line @param {boolean} beside */
function drawLine(call, { here, there, same, fault }, beside) {
  const cells = (hit, isAlone) => [
    element("td", { class: "number" }, hit === null ? "" : String(hit.number)),
    element("td", { class: isAlone ? "alone" : null }, drawHit(call, hit)),
  ];
  const isAlone = (hit, other) => beside && hit !== null && hit.point !== other?.point;
  const kind = fault ? "fault-line" : same || !beside ? "same" : null;
  return element("tr", { class: kind }, ...cells(here, isAlone(here, there)), ...(beside ? cells(there, isAlone(there, here)) : []));
}

/** @param {(point: string) => string} call @param {{lines: any[]}} piece @param {boolean} beside */
function drawFold(call, { lines }, beside) {
  const button = element("button", { type: "button", class: "more" }, `${lines.length} hits${beside ? " that are the same in both" : " without a fault"}`);
  const row = element("tr", { class: "fold" }, element("td", { class: "number" }, "\u22ee"), element("td", { colspan: beside ? "3" : null }, button));
  button.addEventListener("click", () => row.replaceWith(...lines.map((line) => drawLine(call, line, beside))));
  return row;
}

/** What came of two runs, below their hits. @param {any} campaign @param {import("./run.js").Run} run @param {import("./run.js").Run|null} other */
function drawEnds(campaign, run, other) {
  const cells = ({ verdict }) => {
    const [word, code = null] = verdict.startsWith("fail ") ? ["fail", verdict.slice("fail ".length)] : [verdict];
    return [element("td"), element("td", {}, verdictMark(campaign, { verdict: word, code }))];
  };
  return element("tr", { class: "ends" }, ...cells(run), ...(other ? cells(other) : []));
}

/** @param {import("./run.js").Run} other */
function besideWords({ scenario }) {
  return `the run ${scenario === "" ? "without faults" : "without its last fault"}`;
}

/** @param {any} campaign @param {import("./run.js").Run} run @param {import("./run.js").Run|null} other */
function drawHits(campaign, run, other) {
  const { names, call, appendix } = campaign;
  const beside = other !== null;
  const lines = linesOf(run, other, names, appendix ? (scenario) => appendix.hitsOf(scenario) : undefined);
  const pieces = foldLines(beside ? lines : lines.map((line) => ({ ...line, same: true })));
  const rows = pieces.map((piece) => (piece.fold ? drawFold(call, piece, beside) : drawLine(call, piece.line, beside)));
  const head = (words) => [element("th", { class: "number" }, "hit"), element("th", {}, words)];
  const heads = element("thead", {}, element("tr", {}, ...head("this run"), ...(other ? head(besideWords(other)) : [])));
  const files = [...filesOfFaults(lines)];
  const notes = [
    files.length > 0 ? `In bold: hits of the same file as ${files.length === 1 ? "the fault\u2019s" : "a fault\u2019s"}, ${listed(files.map(fileWords))}.` : null,
    lines.some(({ here, there }) => here?.point === KEEP || there?.point === KEEP)
      ? "What is asked for at the power cut wasn\u2019t synced yet, so the disk may keep or lose it." : null,
    run.more > 0 ? `${counted(run.more, "further hit")} of this run ${run.more === 1 ? "isn\u2019t" : "aren\u2019t"} told.` : null,
    endWords(run),
  ];
  return [
    element("div", { class: "scroll" }, element("table", { class: beside ? "hits two" : "hits" }, heads, element("tbody", {}, ...rows, drawEnds(campaign, run, other)))),
    ...notes.filter((note) => note !== null).map((note) => element("p", { class: "muted" }, note)),
  ];
}

/** A run hit by hit, beside another one, read and drawn when it is opened. @param {any} campaign @param {{number: number, scenario: string}} plan @param {boolean} open */
function drawRun(campaign, { number, scenario }, open) {
  const { runs } = campaign;
  if (!runs.has(number, scenario)) return null;
  const made = element("details", { class: "run", open }, element("summary", {}, "The run, hit by hit"));
  const draw = () => {
    const run = runs.of(number, scenario);
    made.append(...drawHits(campaign, run, runs.beside(run)));
  };
  if (open) draw();
  else made.addEventListener("toggle", draw, { once: true });
  return made;
}

/** @param {{end: string|null}} run */
function endWords({ end }) {
  if (end === "limit") return "The run was ended there: it has as many steps as max_hits allows.";
  if (end === "pause") return "The run was ended there by a pause.";
  return end === "panic" ? "A panic ended the program in this run." : null;
}

// ---- first failures and causes

/** @param {any} campaign @param {any} finding @param {number} index */
function drawFinding(campaign, finding, index) {
  const story = storyOf(campaign, finding.reduced);
  const planned = finding.reduced === finding.scenario ? null
    : element("p", { class: "muted" }, `Reduced, in ${counted(finding.tests, "test")}, from `, scenarioCode(finding.scenario));
  return element("article", { id: `first-${finding.number}`, class: "finding" },
    element("h3", {}, verdictMark(campaign, { verdict: "fail", code: finding.code }), ", ", planLink(finding.number)),
    element("p", { class: "words" }, wordsOf(campaign, finding.number, finding.reduced)),
    element("p", {}, scenarioCode(finding.reduced)),
    planned,
    story ? drawStory(story) : null,
    drawRun(campaign, { number: finding.number, scenario: finding.reduced }, index === 0));
}

/** @param {any} campaign */
function drawFindings(campaign) {
  const { findings } = campaign.told;
  if (findings.length === 0) return null;
  const about = findings.length === 1 ? "The first plan that fails, reduced to faults of which none can be left out."
    : "The first plan that fails with each code, reduced to faults of which none can be left out.";
  return section(findings.length === 1 ? "First failure" : "First failures", "first", element("p", { class: "muted" }, about),
    ...findings.map((finding, index) => drawFinding(campaign, finding, index)));
}

/** @param {any} campaign @param {any} cause */
function drawCause(campaign, cause) {
  const mark = verdictMark(campaign, { verdict: "fail", code: cause.code });
  const story = storyOf(campaign, cause.scenario);
  return element("li", { id: `cause-${cause.number}` },
    element("p", {}, mark, ", ", planLink(cause.number), ": ", wordsOf(campaign, cause.number, cause.scenario)),
    scenarioCode(cause.scenario),
    story ? element("details", {}, element("summary", {}, "What was left"), drawStory(story)) : null,
    drawRun(campaign, cause, false));
}

/** @param {any} campaign @param {string[]} points */
function groupWords({ call }, points) {
  const calls = points.filter((point) => point !== KEEP).map(call);
  return listed([...calls, ...(points.includes(KEEP) ? ["what the power cut keeps"] : [])]) || "no fault";
}

/** @param {{depth: number, causes: any[]}} growth */
function causesWords({ depth, causes }) {
  const what = causes.length === 1 ? "One failing plan needs each of its faults: without any one of them it doesn\u2019t fail so."
    : `${grouped(causes.length)} failing plans need each of their faults: without any one of them they don\u2019t fail so.`;
  return `${what} Each plan with at most ${counted(depth, "fault")} that fails has the faults of one of these.`;
}

/** @param {any} campaign */
function drawCauses(campaign) {
  const { growth } = campaign.told;
  if (!growth || growth.causes.length === 0) return null;
  const groups = groupByCalls(growth.causes).map(({ points, items }) => {
    const entries = element("ol", { class: "causes" });
    const button = drawSome(items, SHOWN_CAUSES, entries, (cause) => drawCause(campaign, cause));
    return element("details", { class: "group", open: growth.causes.length <= SHOWN_CAUSES },
      element("summary", {}, `${groupWords(campaign, points)}: ${counted(items.length, "cause")}`), entries, button);
  });
  return section("Causes, by call", "causes",
    element("p", { class: "muted" }, causesWords(growth)),
    ...groups);
}

// ---- the map

/** @param {any} campaign @param {number} number */
function tellPlan(campaign, number) {
  const plan = campaign.plans[number];
  return `plan ${number}, ${verdictWords(plan)}: ${planWords(campaign, plan)}`;
}

/** @param {any} campaign */
function drawLegend(campaign) {
  const { told, codes } = campaign;
  const entry = (plan, words) => element("li", {}, markIcon(markOf(plan, codes)), words);
  const pass = entry({ verdict: "pass", code: null }, `pass (${grouped(told.counts.pass)})`);
  const open = told.counts.unresolved > 0 ? [entry({ verdict: "unresolved", code: null }, `ended without a verdict (${grouped(told.counts.unresolved)})`)] : [];
  const fails = failuresByCode(campaign).map(([code, count]) => entry({ verdict: "fail", code }, `fail ${code} (${grouped(count)})`));
  const first = told.findings.length > 0 ? [element("li", {}, element("span", { class: "swatch" }), "framed: the first that fails with its code")] : [];
  return element("ul", { class: "legend" }, pass, ...open, ...fails, ...first);
}

/** @param {any} campaign @param {(number: number) => void} chosen */
function drawMap(campaign, chosen) {
  const view = new MapView(campaign, { label: (row) => rowWords(row, campaign.call), tell: (number) => tellPlan(campaign, number), chosen });
  const sizes = choice("cell-size", "Marks", [["12", "small"], ["16", "middle"], ["20", "large"]]);
  sizes.select.value = String(view.cell);
  sizes.select.addEventListener("change", () => view.resize(Number(sizes.select.value)));
  const made = section("Map", "map",
    element("p", {}, mapWords(campaign)),
    drawLegend(campaign),
    element("p", { class: "controls" }, sizes.label),
    element("p", { id: "map-keys", hidden: true }, KEYS),
    view.box);
  return { made, view };
}

/** What the map shows. Only of plans that grew it is known which fault acts first. @param {any} campaign */
function mapWords({ told }) {
  const down = told.growth ? "acts first, in the order of the run without faults" : "its scenario names first";
  const onward = told.growth?.onward > 0 ? " In the last column the last fault goes on from then on." : "";
  return `Each mark is a plan. Down stands the fault that ${down}; across, how many faults it has.${onward} In a row the marks stand in the order of their `
    + "plans\u2019 numbers. A column closes and opens by its head.";
}

/** What is told of the plan that was chosen. @param {any} campaign @param {number} number */
function drawChosen(campaign, number) {
  const plan = campaign.plans[number];
  if (!plan) return [element("p", {}, `Plan ${number} isn\u2019t in this campaign.`)];
  const story = storyOf(campaign, plan.text);
  return [
    element("h3", {}, `Plan ${number} `, verdictMark(campaign, plan)),
    element("p", { class: "words" }, wordsOf(campaign, number, plan.text)),
    element("p", {}, scenarioCode(plan.text)),
    plan.parent === null ? null : element("p", {}, "It grew from ", planLink(plan.parent), "."),
    drawDescendants(campaign, number),
    story ? drawStory(story) : drawAgainCommand(campaign.appendix?.again(plan.text) ?? explainCommand(campaign.told.about, plan)),
    drawRun(campaign, { number, scenario: plan.text }, true),
  ].filter((child) => child !== null);
}

/** @param {any} campaign @param {number} number */
function drawDescendants(campaign, number) {
  const { plans, fail } = descendantsOf(campaign, number);
  if (plans === 0) return null;
  const failing = fail === 0 ? "none fails" : `${grouped(fail)} ${fail === 1 ? "fails" : "fail"}`;
  return element("p", {}, `${counted(plans, "plan")} grew from it; of these ${failing}.`);
}

// ---- points

/** How many of the plans that fail have a fault at each point. @param {any} campaign @returns {Map<string, number>} */
function failuresByPoint({ told }) {
  const counts = new Map();
  for (const { verdict, scenario } of told.not_passed) {
    if (verdict !== "fail") continue;
    for (const point of new Set((clausesOf(scenario) ?? []).map((clause) => clause.point))) counts.set(point, (counts.get(point) ?? 0) + 1);
  }
  return counts;
}

/** @param {any} campaign */
function drawPoints(campaign) {
  const { told } = campaign;
  const failures = failuresByPoint(campaign);
  const grown = told.growth !== null;
  const cell = (count) => element("td", { class: count === 0 ? "number muted" : "number" }, count === 0 ? "none" : grouped(count));
  const rows = campaign.points.map(({ point, clean, reached }) =>
    element("tr", {}, element("td", {}, element("code", {}, point)), cell(clean), grown ? cell(reached ?? 0) : null, cell(failures.get(point) ?? 0)));
  const heads = ["point", "hits without faults", ...(grown ? ["most hits of any run"] : []), "failing plans with a fault there"];
  return section("Points", "points",
    element("p", { class: "muted" }, grown ? "A point that no run hits got no fault." : "A point that the run without faults doesn\u2019t hit got no fault."),
    element("div", { class: "scroll" }, element("table", { class: "points" },
      element("thead", {}, element("tr", {}, ...heads.map((head, index) => element("th", { class: index > 0 ? "number" : null }, head)))),
      element("tbody", {}, ...rows))));
}

// ---- all plans

/**
 * A choice among values, each shown as a text. The value is told as it was given: attributes show characters that can't be seen by their numbers.
 * @param {string} id
 * @param {string} words
 * @param {[string, string][]} options
 */
function choice(id, words, options) {
  const select = element("select", { id }, ...options.map(([value, text]) => element("option", { value }, text)));
  return { select, label: element("label", { for: id }, `${words} `, select), value: () => options[select.selectedIndex][0] };
}

/** @param {any} campaign @returns {[string, string][]} */
function verdictChoices({ told, codes }) {
  const fails = codes.length > 1 ? codes.map((code) => [`fail ${code}`, `fail ${code}`]) : [];
  const unresolved = told.counts.unresolved > 0 ? [["unresolved", "unresolved"]] : [];
  return [["", "any"], ["fail", "fail"], ...fails, ...unresolved, ["pass", "pass"]];
}

/** @param {any} campaign @param {Plan} plan */
function drawPlan(campaign, plan) {
  return element("tr", {},
    element("td", { class: "number" }, element("a", { href: `#plan-${plan.number}` }, String(plan.number))),
    element("td", {}, verdictMark(campaign, plan)),
    element("td", {}, element("div", { class: "words" }, planWords(campaign, plan)), scenarioCode(plan.text)));
}

/** @param {any} campaign */
function drawPlans(campaign) {
  const { told, call } = campaign;
  const levels = campaign.parts.map((part) => [levelKeyOf({ part }), partWords(part)]);
  const verdict = choice("by-verdict", "Verdict", verdictChoices(campaign));
  const point = choice("by-point", "Fault at", [["", "any point"], ...campaign.names.map((name) => [name, call(name)])]);
  const level = choice("by-level", "With", [["", "any faults"], ...levels]);
  const text = element("input", { id: "by-text", type: "search", autocomplete: "off" });
  const status = element("p", { role: "status", class: "muted" });
  const body = element("tbody");
  const after = element("div");
  const show = () => {
    const wanted = { verdict: verdict.value(), point: point.value(), level: level.value(), text: text.value };
    const found = filterPlans(campaign, wanted);
    status.textContent = `${counted(found.length, "plan")} of ${grouped(campaign.plans.length)}`;
    body.replaceChildren();
    after.replaceChildren(drawSome(found, SHOWN_PLANS, body, (plan) => drawPlan(campaign, plan)));
  };
  for (const input of [verdict.select, point.select, level.select, text]) input.addEventListener("input", show);
  if (told.counts.fail > 0) verdict.select.value = "fail";
  show();
  const head = element("thead", {}, element("tr", {}, element("th", { class: "number" }, "plan"), element("th", {}, "verdict"), element("th", {}, "scenario")));
  return section("Plans", "plans",
    element("form", { class: "filters" }, verdict.label, point.label, level.label, element("label", { for: "by-text" }, "Number or text ", text)),
    status, element("div", { class: "scroll" }, element("table", { class: "plans" }, head, body)), after);
}

// ---- again

/** The program that was tested, and the command of the campaign. @param {any} appendix @returns {[string, string][]} */
function itemsOfLoop(appendix) {
  if (!appendix) return [];
  const { program, date, command } = appendix.told;
  const files = program.files.map(({ name, digest, changed }) => ["program\u2019s file", `${name}, SHA-256 ${digest}\u2026, changed ${changed}`]);
  const version = program.version === "" ? [] : [["program\u2019s version", program.version]];
  return [["program, run as", program.run.join("\n")], ...version, ...files, ["date", date], ["campaign by", command]];
}

/** @param {any} campaign */
function drawAgain({ told: { seed, about }, appendix }) {
  const items = [...itemsOfLoop(appendix), ["seed", seed], ["report by", `paklour ${about.program_version}`], ["command", about.command]];
  const lines = (value) => value.split("\n").map((line) => element("div", {}, element("code", {}, line)));
  const rows = items.map(([name, value]) => element("tr", {}, element("th", { scope: "row" }, name), element("td", {}, ...lines(value))));
  return section("Make it again", "again",
    element("table", {}, element("tbody", {}, ...rows)),
    element("p", { class: "muted" }, "Settings, as they stand in FILE:"),
    preformatted(about.settings));
}

// ---- the page

/** @param {any} campaign */
function drawPage(campaign) {
  const chosen = element("div", { id: "chosen", class: "chosen", tabindex: "-1", "aria-live": "polite" });
  const choose = (number) => {
    chosen.replaceChildren(...drawChosen(campaign, number));
    if (location.hash !== `#plan-${number}`) history.replaceState(null, "", `#plan-${number}`);
  };
  const { made, view } = drawMap(campaign, choose);
  made.append(chosen);
  const parts = [drawFindings(campaign), drawCauses(campaign), made, drawPoints(campaign), drawPlans(campaign), drawAgain(campaign)];
  const sections = parts.filter((part) => part !== null);
  document.getElementById("page").replaceChildren(drawHeader(campaign), drawContents(sections), ...sections);
  view.fit(view.box.clientWidth);
  followHash(view, choose, chosen);
}

/**
 * A link to a plan leads to the map, and to what is told of the plan.
 * @param {MapView} view
 * @param {(number: number) => void} choose
 * @param {HTMLElement} chosen
 */
function followHash(view, choose, chosen) {
  const follow = () => {
    const match = /^#plan-(\d+)$/.exec(location.hash);
    if (!match) return;
    const number = Number(match[1]);
    view.select(number < view.campaign.plans.length ? number : null);
    choose(number);
    chosen.scrollIntoView({ block: "center" });
  };
  addEventListener("hashchange", follow);
  document.getElementById("page").addEventListener("click", (event) => {
    const link = /** @type {Element} */ (event.target).closest("a");
    if (link && link.getAttribute("href") === location.hash) follow();
  });
  follow();
}

/** @param {unknown} error */
function drawError(error) {
  const problems = error instanceof ReadError ? error.problems : [String(error)];
  document.getElementById("page").replaceChildren(
    element("h1", {}, "This report can\u2019t be shown"),
    element("ul", {}, ...problems.slice(0, 5).map((problem) => element("li", {}, problem))),
    element("p", {}, "Its text stands below."));
}

/** What the loop has added, or null. If it can't be read, the report is shown without it. */
function appendixInPage() {
  const added = document.getElementById("told-by-the-loop");
  try {
    return { appendix: added && readAppendix(added.textContent), problems: [] };
  } catch (error) {
    if (!(error instanceof ReadError)) throw error;
    return { appendix: null, problems: error.problems };
  }
}

/** Shows the report that stands in this page. The text that is there without a script is folded then. */
export function start() {
  try {
    const campaign = { ...campaignOf(readDocument(document.getElementById("document").textContent)), ...appendixInPage() };
    drawPage(campaign);
    requestIdleCallback(() => loweredTexts(campaign));
    document.title = shown([titleOf(campaign), ...(campaign.appendix ? [campaign.appendix.told.date] : []), "Paklour"].join(" \u2013 "));
    document.getElementById("brief").open = false;
  } catch (error) {
    drawError(error);
  }
}
