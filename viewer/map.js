// Where each plan of a campaign lies in the map. Down the map stand the first faults, in the order of the run without faults; across it the levels, side by
// side. Where a first fault and a level meet, a strip holds the plans that begin with that fault, in lines of cells, in the order of their numbers.
import { levelKeyOf } from "./document.js";

/** @typedef {import("./document.js").Plan} Plan */
/** @typedef {{key: string, level: number|null, plans: number, open: boolean, slots: number, left: number, width: number}} Column */
/** @typedef {{column: number|null, left: number, slots: number, numbers: number[]}} Strip */
/** @typedef {{row: number, part: number, top: number, firstLine: number, lines: number, height: number, strips: Strip[]}} Band */
/** @typedef {{kind: "none"|"site"|"wide", point: string|null, hit: number, name: string|null}} Row */
/**
 * @typedef {{cell: number, gap: number, width: number, height: number, rows: Row[], columns: Column[], bands: Band[],
 *   lineBands: number[], places: Map<number, {band: number, strip: number, index: number}>}} Layout
 */

/** Between two columns, and between two bands; between bands of one line each there is less. */
export const GAP = 10;
export const TIGHT = 4;
/** The room of a closed column: its count is told there. */
export const CLOSED = 44;
/** As many lines has a band at most, so that a page that is printed can end between two. */
export const LINES = 24;

const FEWEST_SLOTS = 4;

/**
 * The rows of the map, and the row of each plan: the run without faults; a first fault's hit; a list that didn't grow (storms and the like).
 * @param {{plans: Plan[], names: string[]}} campaign
 */
export function rowsOf(campaign) {
  const rows = [];
  const indexes = new Map();
  /** @type {number[]} */
  const rowOf = [];
  const add = (key, row) => {
    if (!indexes.has(key)) indexes.set(key, rows.push(row) - 1);
    return indexes.get(key);
  };
  for (const plan of campaign.plans) rowOf.push(rowOfPlan(plan, campaign, rowOf, add));
  return { rows, rowOf };
}

/** @param {Plan} plan @param {{names: string[]}} campaign @param {number[]} rowOf @param {(key: string, row: Row) => number} add */
function rowOfPlan(plan, { names }, rowOf, add) {
  const { name, level } = plan.part;
  if (name === "storms" || name === "listed") return add(name, { kind: "wide", point: null, hit: 0, name });
  if (level === 0 && name !== "onward") return add("none", { kind: "none", point: null, hit: 0, name: null });
  if (plan.parent) return rowOf[plan.parent];
  const { point, hit } = plan.fault;
  return add(`${hit} ${point}`, { kind: "site", point: names[point], hit, name: null });
}

/**
 * How many cells a line has in each column, of so many in all: each column gets a few, and of the rest as much as its share of the plans, but none more than
 * its longest strip.
 * @param {{plans: number, longest: number}[]} columns
 * @param {number} room
 * @returns {number[]}
 */
export function shareSlots(columns, room) {
  const slots = columns.map(({ longest }) => Math.min(longest, FEWEST_SLOTS));
  let left = room - slots.reduce((sum, count) => sum + count, 0);
  let growing = columns.map((_, index) => index).filter((index) => slots[index] < columns[index].longest);
  while (left > 0 && growing.length > 0) {
    const plans = growing.reduce((sum, index) => sum + columns[index].plans, 0);
    const before = left;
    for (const index of growing) {
      const more = Math.min(Math.ceil((before * columns[index].plans) / plans), columns[index].longest - slots[index], left);
      slots[index] += more;
      left -= more;
    }
    growing = growing.filter((index) => slots[index] < columns[index].longest);
  }
  return slots;
}

/**
 * The strips of each row: for each column, or across all of them, the numbers of the plans.
 * @param {{plans: Plan[]}} campaign
 * @param {Row[]} rows
 * @param {number[]} rowOf
 */
function gather(campaign, rows, rowOf) {
  const strips = rows.map(() => new Map());
  for (const plan of campaign.plans) {
    const row = rowOf[plan.number];
    const key = rows[row].kind === "wide" ? null : levelKeyOf(plan);
    const numbers = strips[row].get(key);
    if (numbers) numbers.push(plan.number);
    else strips[row].set(key, [plan.number]);
  }
  return strips;
}

/**
 * @param {{parts: {name: string, level: number|null, count: number}[], plans: Plan[]}} campaign
 * @param {Map<string|null, number[]>[]} strips
 * @param {{width: number, cell: number, closed: Set<string>}} options
 * @returns {Column[]}
 */
function columnsOf(campaign, strips, { width, cell, closed }) {
  const keys = [];
  for (const part of campaign.parts) if (part.level !== null) keys.push({ key: levelKeyOf({ part }), level: part.level });
  const sizes = keys.map(({ key }) => {
    const lengths = strips.map((strip) => strip.get(key)?.length ?? 0);
    return { plans: lengths.reduce((sum, length) => sum + length, 0), longest: Math.max(1, ...lengths) };
  });
  const opened = keys.map(({ key }) => !closed.has(key));
  const room = Math.floor((width - keys.length * GAP - opened.filter((open) => !open).length * CLOSED) / cell);
  const shares = shareSlots(sizes.filter((_, index) => opened[index]), room);
  let left = 0;
  return keys.map(({ key, level }, index) => {
    const slots = opened[index] ? shares.shift() : 0;
    const column = { key, level, plans: sizes[index].plans, open: opened[index], slots, left, width: opened[index] ? slots * cell : CLOSED };
    left += column.width + GAP;
    return column;
  });
}

/**
 * The bands of a row: as many as its longest strip needs.
 * @param {Map<string|null, number[]>} strips
 * @param {number} row
 * @param {Column[]} columns
 * @param {{width: number, cell: number}} options
 */
function bandsOf(strips, row, columns, { width, cell }) {
  const whole = [...strips].map(([key, numbers]) => {
    const column = key === null ? null : columns.findIndex((one) => one.key === key);
    const wide = { left: 0, open: true, slots: Math.max(FEWEST_SLOTS, Math.floor(width / cell)) };
    const { left, slots, open } = column === null ? wide : columns[column];
    return { column, left, slots, open, numbers };
  });
  const lines = Math.max(1, ...whole.map((strip) => (strip.open ? Math.ceil(strip.numbers.length / strip.slots) : 1)));
  return Array.from({ length: Math.ceil(lines / LINES) }, (_, part) => ({
    row, part,
    strips: whole
      .map(({ open, ...strip }) => ({
        ...strip,
        numbers: open ? strip.numbers.slice(part * LINES * strip.slots, (part + 1) * LINES * strip.slots) : part === 0 ? strip.numbers : [],
      }))
      .filter((strip) => strip.numbers.length > 0)
      .sort((one, other) => one.left - other.left),
    lines: Math.min(LINES, lines - part * LINES),
  }));
}

/**
 * The map of a campaign, `width` wide where its levels find room in that, with cells of this size. Plans of closed levels have no place.
 * @param {any} campaign
 * @param {{width: number, cell: number, closed?: Set<string>}} options
 * @param {{rows: Row[], rowOf: number[]}} [known] the rows, where they are known
 * @returns {Layout}
 */
export function layoutMap(campaign, { width, cell, closed = new Set() }, { rows, rowOf } = rowsOf(campaign)) {
  const strips = gather(campaign, rows, rowOf);
  const columns = columnsOf(campaign, strips, { width, cell, closed });
  const whole = Math.max(width, ...columns.map((column) => column.left + column.width));
  const unstacked = strips.flatMap((strip, row) => bandsOf(strip, row, columns, { width: whole, cell }));
  const gap = unstacked.every((band) => band.lines === 1) ? TIGHT : GAP;
  const bands = stack(unstacked, cell, gap);
  const lineBands = bands.flatMap((band, index) => Array.from({ length: band.lines }, () => index));
  const height = bands.reduce((sum, band) => sum + band.height + gap, 0);
  let places = null;
  return {
    cell, gap, width: whole, height, rows, columns, bands, lineBands,
    // Only keys and a plan that is chosen ask for it.
    get places() {
      places ??= placesOf(bands);
      return places;
    },
  };
}

/** One band below the other. @param {{lines: number}[]} bands @param {number} cell @param {number} gap @returns {Band[]} */
function stack(bands, cell, gap) {
  let top = 0;
  let firstLine = 0;
  return bands.map((band) => {
    const placed = { ...band, top, firstLine, height: band.lines * cell };
    top += placed.height + gap;
    firstLine += band.lines;
    return placed;
  });
}

/** @param {Band[]} bands */
function placesOf(bands) {
  const places = new Map();
  bands.forEach((band, index) => band.strips.forEach((strip, at) => {
    if (strip.slots > 0) strip.numbers.forEach((number, slot) => places.set(number, { band: index, strip: at, index: slot }));
  }));
  return places;
}

/**
 * Where a plan's cell begins; null of a plan that has no place.
 * @param {Layout} layout
 * @param {number} number
 */
export function placeOf(layout, number) {
  const place = layout.places.get(number);
  if (!place) return null;
  const band = layout.bands[place.band];
  const strip = band.strips[place.strip];
  return {
    x: strip.left + (place.index % strip.slots) * layout.cell,
    y: band.top + Math.floor(place.index / strip.slots) * layout.cell,
  };
}

/**
 * The plan at a place of a strip; null where none is.
 * @param {Strip} strip
 * @param {number} cell
 * @param {number} x from the strip's left
 * @param {number} y from the band's top
 */
export function planIn(strip, cell, x, y) {
  const slot = Math.floor(x / cell);
  if (slot < 0 || slot >= strip.slots || y < 0) return null;
  return strip.numbers[Math.floor(y / cell) * strip.slots + slot] ?? null;
}

/** The cells of a line, of all lines of the map. @param {Layout} layout @param {number} at */
function lineAt(layout, at) {
  const band = layout.bands[layout.lineBands[at]];
  const line = at - band.firstLine;
  return band.strips.filter((strip) => strip.slots > 0).flatMap((strip) =>
    strip.numbers.slice(line * strip.slots, (line + 1) * strip.slots).map((number, slot) => ({ number, x: strip.left + slot * layout.cell })));
}

/** The next line that has a cell, from this one in this direction. @param {Layout} layout @param {number} line @param {1|-1} step */
function lineBeside(layout, line, step) {
  for (let at = line + step; at >= 0 && at < layout.lineBands.length; at += step) {
    const cells = lineAt(layout, at);
    if (cells.length > 0) return { line: at, cells };
  }
  return null;
}

/** @param {{number: number, x: number}[]} cells @param {number} x */
function nearest(cells, x) {
  return cells.reduce((best, cell) => (Math.abs(cell.x - x) < Math.abs(best.x - x) ? cell : best)).number;
}

/**
 * The plan that a key leads to from another: arrows to the next cell, Home and End to the line's ends, Page Up and Page Down by ten lines. Where the map ends,
 * the plan itself.
 * @param {Layout} layout
 * @param {number} number
 * @param {string} key
 */
export function planBeside(layout, number, key) {
  const place = layout.places.get(number);
  if (!place) return number;
  const band = layout.bands[place.band];
  const line = band.firstLine + Math.floor(place.index / band.strips[place.strip].slots);
  const cells = lineAt(layout, line);
  const at = cells.findIndex((cell) => cell.number === number);
  switch (key) {
    case "ArrowRight": return (cells[at + 1] ?? lineBeside(layout, line, 1)?.cells[0] ?? cells[at]).number;
    case "ArrowLeft": return (cells[at - 1] ?? lineBeside(layout, line, -1)?.cells.at(-1) ?? cells[at]).number;
    case "Home": return cells[0].number;
    case "End": return cells[cells.length - 1].number;
    case "ArrowDown": return linesAway(layout, line, cells[at], 1);
    case "ArrowUp": return linesAway(layout, line, cells[at], -1);
    case "PageDown": return linesAway(layout, line, cells[at], 10);
    case "PageUp": return linesAway(layout, line, cells[at], -10);
    default: return number;
  }
}

/** @param {Layout} layout @param {number} line @param {{number: number, x: number}} cell @param {number} lines */
function linesAway(layout, line, cell, lines) {
  let found = { line, cells: [cell] };
  for (let left = Math.abs(lines); left > 0; left -= 1) found = lineBeside(layout, found.line, lines > 0 ? 1 : -1) ?? found;
  return nearest(found.cells, cell.x);
}
