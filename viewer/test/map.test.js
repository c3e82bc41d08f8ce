import assert from "node:assert/strict";
import { test } from "node:test";
import { campaignOf, readDocument } from "../document.js";
import { GAP, LINES, layoutMap, placeOf, planBeside, planIn, shareSlots } from "../map.js";
import { SHAPES, markClass, markOf, markPath } from "../marks.js";
import { drawn, largestDocument, makeDocument } from "./made.js";
import { reports } from "./reports.js";

const SIZES = [{ width: 330, cell: 12 }, { width: 700, cell: 20 }, { width: 1080, cell: 16 }];

/** Looks at each plan of a map: it has one place, inside, alone, and what lies there is the plan. */
function look(campaign, layout, name) {
  const { cell } = layout;
  assert.equal(layout.places.size, campaign.plans.length, name);
  const taken = new Set();
  for (const plan of campaign.plans) {
    const { x, y } = placeOf(layout, plan.number);
    assert.ok(x >= 0 && y >= 0 && x + cell <= layout.width && y + cell <= layout.height, `${name}, plan ${plan.number} is outside: ${x} ${y}`);
    const key = `${x} ${y}`;
    assert.ok(!taken.has(key), `${name}, plan ${plan.number} lies over another at ${key}`);
    taken.add(key);
    const { band, strip } = layout.places.get(plan.number);
    const at = layout.bands[band].strips[strip];
    assert.equal(planIn(at, cell, x - at.left + cell / 2, y - layout.bands[band].top + cell / 2), plan.number, name);
  }
  lookApart(layout, name);
}

/** No band lies over another, and no strip over another. */
function lookApart(layout, name) {
  layout.columns.slice(1).forEach((column, index) => {
    const before = layout.columns[index];
    assert.ok(column.left >= before.left + before.width + GAP, `${name}, columns`);
  });
  layout.bands.forEach((band, index) => {
    assert.ok(band.lines <= LINES && band.height >= band.lines * layout.cell, name);
    if (index > 0) assert.ok(band.top >= layout.bands[index - 1].top + layout.bands[index - 1].height, `${name}, bands`);
    for (const strip of band.strips) assert.ok(strip.left + Math.min(strip.slots, strip.numbers.length) * layout.cell <= layout.width, `${name}, strips`);
    band.strips.slice(1).forEach((strip, at) => assert.ok(strip.left >= band.strips[at].left + band.strips[at].slots * layout.cell, `${name}, strips`));
  });
}

test("each plan of each report has one place in the map, inside, alone", () => {
  for (const { name, json } of reports()) {
    const campaign = campaignOf(readDocument(json));
    for (const size of SIZES) look(campaign, layoutMap(campaign, size), `${name} at ${size.width}`);
  }
});

test("so has each of the largest campaigns, of two faults at 250 hits and of eight", () => {
  for (const depth of [2, 8]) {
    const campaign = campaignOf(readDocument(JSON.stringify(largestDocument(depth).document)));
    for (const size of SIZES) look(campaign, layoutMap(campaign, size), `depth ${depth}`);
  }
});

test("a row holds what begins with its fault, a column what has as many faults", () => {
  for (let seed = 0; seed < 80; seed += 1) {
    const { document, levels } = makeDocument({ ...drawn(seed) });
    const campaign = campaignOf(readDocument(JSON.stringify(document)));
    const layout = layoutMap(campaign, SIZES[2]);
    for (const plan of campaign.plans.filter((one) => one.fault)) {
      const { band, strip } = layout.places.get(plan.number);
      const row = layout.rows[layout.bands[band].row];
      let first = plan;
      while (campaign.plans[first.parent].fault) first = campaign.plans[first.parent];
      assert.deepEqual([row.point, row.hit], [campaign.names[first.fault.point], first.fault.hit], `made ${seed}`);
      assert.equal(layout.columns[layout.bands[band].strips[strip].column].key, levels[plan.number], `made ${seed}`);
    }
  }
});

test("a closed column gives its room to the others, and its plans have no place", () => {
  const campaign = campaignOf(readDocument(JSON.stringify(makeDocument({ ...drawn(4), depth: 3, most: 900, longest: 8 }).document)));
  const layout = layoutMap(campaign, { ...SIZES[1], closed: new Set(["2"]) });
  const open = campaign.plans.filter((plan) => plan.part.name !== "level" || plan.part.level !== 2);
  assert.deepEqual([...layout.places.keys()].sort((one, other) => one - other), open.map((plan) => plan.number));
  assert.equal(layout.columns.find((column) => column.key === "2").open, false);
});

test("lines share their room by the plans of each column", () => {
  assert.deepEqual(shareSlots([{ plans: 1, longest: 1 }, { plans: 8, longest: 2 }, { plans: 100, longest: 50 }], 40), [1, 2, 37]);
  assert.deepEqual(shareSlots([{ plans: 10, longest: 6 }, { plans: 10, longest: 50 }], 20), [6, 14]);
  assert.deepEqual(shareSlots([{ plans: 10, longest: 9 }, { plans: 10, longest: 9 }], 3), [4, 4]);
});

test("keys lead through the whole map, and back", () => {
  for (let seed = 0; seed < 40; seed += 1) {
    const campaign = campaignOf(readDocument(JSON.stringify(makeDocument({ ...drawn(seed), most: 200 }).document)));
    const layout = layoutMap(campaign, SIZES[0]);
    const start = [...layout.places.keys()][0];
    const met = [start];
    for (let at = start, next = planBeside(layout, at, "ArrowRight"); next !== at; next = planBeside(layout, at, "ArrowRight")) {
      assert.equal(planBeside(layout, next, "ArrowLeft"), at);
      met.push(next);
      at = next;
    }
    assert.equal(new Set(met).size, campaign.plans.length, `made ${seed}`);
    assert.equal(met.length, campaign.plans.length, `made ${seed}`);
  }
});

test("an arrow up or down leads to a neighbouring line, to the nearest cell", () => {
  const campaign = campaignOf(readDocument(JSON.stringify(makeDocument({ ...drawn(4), depth: 2, most: 400, longest: 12, failing: 0 }).document)));
  const layout = layoutMap(campaign, SIZES[1]);
  for (const plan of campaign.plans) {
    const { x, y } = placeOf(layout, plan.number);
    const below = placeOf(layout, planBeside(layout, plan.number, "ArrowDown"));
    const lower = campaign.plans.map((one) => placeOf(layout, one.number)).filter((place) => place.y > y);
    if (lower.length === 0) assert.deepEqual(below, { x, y });
    else {
      const next = Math.min(...lower.map((place) => place.y));
      assert.equal(below.y, next);
      assert.equal(Math.abs(below.x - x), Math.min(...lower.filter((place) => place.y === next).map((place) => Math.abs(place.x - x))));
    }
  }
  const first = campaign.plans[0].number;
  assert.equal(planBeside(layout, first, "PageUp"), first);
  assert.equal(planBeside(layout, first, "x"), first);
});

test("64 codes have 64 marks, each with a shape and a colour, and none is that of a pass or of what is unresolved", () => {
  const codes = Array.from({ length: 64 }, (_, index) => `code ${index}`);
  const marks = codes.map((code) => markOf({ verdict: "fail", code }, codes));
  const looks = marks.map((mark) => `${markPath(mark, 0, 0, 12)} ${markClass(mark)}`);
  assert.equal(new Set(looks).size, 64);
  assert.equal(new Set(looks.slice(0, SHAPES).map((look) => look.split(" mark")[0])).size, SHAPES);
  const others = [{ verdict: "pass", code: null }, { verdict: "unresolved", code: null }].map((plan) => markPath(markOf(plan, codes), 0, 0, 12));
  assert.equal(new Set([...others, ...marks.map((mark) => markPath(mark, 0, 0, 12))]).size, SHAPES + 2);
});

test("a mark lies inside its cell", () => {
  for (const cell of [12, 16, 20]) {
    for (let mark = 0; mark < 2 + SHAPES; mark += 1) {
      const { left, right, top, bottom } = extent(markPath(mark, 0, 0, cell));
      assert.ok(left >= 0 && top >= 0 && right <= cell && bottom <= cell, `mark ${mark} of ${cell}`);
    }
  }
});

/** How far a path of these commands goes: M, l, h, v, a, z. */
function extent(path) {
  const box = { left: Infinity, right: -Infinity, top: Infinity, bottom: -Infinity };
  let [x, y] = [0, 0];
  for (const [, command, rest] of path.matchAll(/([Mlhvaz])([^Mlhvaz]*)/g)) {
    const values = rest.trim() === "" ? [] : rest.trim().split(/\s+|(?<=\d)(?=-)/).map(Number);
    assert.ok(values.every(Number.isFinite), path);
    if (command === "M") [x, y] = values;
    if (command === "l") [x, y] = [x + values[0], y + values[1]];
    if (command === "h") x += values[0];
    if (command === "v") y += values[0];
    if (command === "a") [x, y] = [x + values[5], y + values[6]];
    Object.assign(box, { left: Math.min(box.left, x), right: Math.max(box.right, x), top: Math.min(box.top, y), bottom: Math.max(box.bottom, y) });
  }
  return box;
}
