// Draws the map, and leads pointer and keys to its plans.
import { element, svgElement } from "./dom.js";
import { layoutMap, placeOf, planBeside, planIn, rowsOf } from "./map.js";
import { framePath, markClass, markOf, markPath } from "./marks.js";
import { partWords } from "./verdict.js";
import { counted, grouped } from "./words.js";

/** @typedef {import("./map.js").Layout} Layout */
/** @typedef {import("./map.js").Band} Band */
/** @typedef {import("./map.js").Strip} Strip */

const NARROW = 640;
/** The room of a label: by its characters, between these, and of a share of the map at most. */
const LABEL = { character: 6.9, least: 120, most: 340, share: 0.36 };
/** What a printed page has room for. */
const PRINTED_WIDTH = 700;
/** What the map's box has left and right of it. */
const SIDES = 24;
/** A map that would be far taller than this is made wider than its box, and scrolls. */
const TALL = 12000;
/** A column's head of this width has words in it. */
const ROOM_FOR_WORDS = 90;
const SMALLEST = 12;
const CELLS = [{ most: 400, size: 20 }, { most: 3000, size: 16 }];
const HINT = "Point at a mark to see its plan here, or press the arrow keys; a click or Enter tells more.";
const MOVES = new Set(["ArrowLeft", "ArrowRight", "ArrowUp", "ArrowDown", "Home", "End", "PageUp", "PageDown"]);

/** The size of a cell: large where there are few. @param {number} plans */
export function cellFor(plans) {
  return CELLS.find(({ most }) => plans <= most)?.size ?? SMALLEST;
}

/** The room for labels of which the longest has so many characters, in a map of this width. @param {number} characters @param {number} width */
export function labelWidth(characters, width) {
  return Math.round(Math.max(LABEL.least, Math.min(characters * LABEL.character + 12, LABEL.most, width * LABEL.share)));
}

/** The marks of a strip, one path for each that it has. @param {any} campaign @param {Strip} strip @param {number} cell */
export function stripPaths(campaign, strip, cell) {
  const paths = new Map();
  strip.numbers.forEach((number, index) => {
    const mark = markOf(campaign.plans[number], campaign.codes);
    const path = markPath(mark, (index % strip.slots) * cell, Math.floor(index / strip.slots) * cell, cell);
    paths.set(mark, (paths.get(mark) ?? "") + path);
  });
  return paths;
}

/** How many plans a strip has, and how many fail. @param {any} campaign @param {Strip} strip */
function stripWords(campaign, strip) {
  const fail = strip.numbers.filter((number) => campaign.plans[number].verdict === "fail").length;
  return `${counted(strip.numbers.length, "plan")}${fail > 0 ? `, ${grouped(fail)} ${fail === 1 ? "fails" : "fail"}` : ""}`;
}

/** The map of a campaign: an element, and what chooses a plan in it. */
export class MapView {
  /**
   * @param {any} campaign
   * @param {{label: (row: any) => string, tell: (number: number) => string, chosen: (number: number) => void}} options what a row and a plan are called
   */
  constructor(campaign, { label, tell, chosen }) {
    Object.assign(this, { campaign, label, tell, chosen });
    this.closed = new Set();
    this.cell = cellFor(campaign.plans.length);
    this.known = rowsOf(campaign);
    this.longest = this.known.rows.reduce((most, row) => Math.max(most, label(row).length), 0);
    this.selected = null;
    this.firsts = new Set(campaign.told.findings.map((finding) => finding.number));
    this.grid = element("div", { class: "map", role: "grid", tabindex: "0", "aria-label": "Map of plans", "aria-describedby": "map-keys" });
    this.pointed = element("p", { class: "pointed" }, HINT);
    this.box = element("div", { class: "map-box" }, this.grid, this.pointed);
    this.listen();
  }

  listen() {
    this.grid.addEventListener("pointermove", (event) => this.point(this.planUnder(event)));
    this.grid.addEventListener("pointerleave", () => this.point(null));
    this.grid.addEventListener("click", (event) => {
      const number = this.planUnder(event);
      if (number !== null) this.choose(number);
    });
    this.grid.addEventListener("focus", () => this.begin());
    this.grid.addEventListener("keydown", (event) => this.press(event));
    new ResizeObserver(() => this.fit(this.box.clientWidth)).observe(this.box);
    addEventListener("beforeprint", () => this.fit(PRINTED_WIDTH, Infinity));
    addEventListener("afterprint", () => this.fit(this.box.clientWidth));
  }

  /** Where keys lead to the map a plan is selected; a pointer selects its own. */
  begin() {
    const isSelected = this.selected !== null && this.layout.places.has(this.selected);
    if (!isSelected && this.grid.matches(":focus-visible")) this.select(this.firstPlan());
  }

  firstPlan() {
    const failing = this.campaign.told.findings[0]?.number;
    return this.layout.places.has(failing) ? failing : [...this.layout.places.keys()][0] ?? null;
  }

  /** Draws the map for this width, or wider where it would be far taller than `tall`. @param {number} width @param {number} [tall] */
  fit(width, tall = TALL) {
    if (width === 0 || (width === this.width && tall === this.tall)) return;
    Object.assign(this, { width, tall });
    this.draw();
  }

  /** @param {number} cell */
  resize(cell) {
    this.cell = cell;
    this.draw();
  }

  draw() {
    const labels = this.width < NARROW ? 0 : labelWidth(this.longest, this.width);
    const width = Math.max(this.width - labels - SIDES, Math.ceil((this.campaign.plans.length * this.cell ** 2) / this.tall));
    this.layout = layoutMap(this.campaign, { width, cell: this.cell, closed: this.closed }, this.known);
    this.box.classList.toggle("narrow", labels === 0);
    this.box.style.setProperty("--labels", `${labels}px`);
    this.grid.setAttribute("aria-rowcount", String(this.layout.bands.length + 1));
    this.grid.setAttribute("aria-colcount", String(this.layout.columns.length + 1));
    this.grid.replaceChildren(this.drawHead(), ...this.layout.bands.map((band, index) => this.drawBand(band, index)));
    for (const strips of this.grid.querySelectorAll(".map-strips")) strips.style.width = `${this.layout.width}px`;
    this.drawSelection();
  }

  drawHead() {
    const strips = element("div", { class: "map-strips", role: "presentation" });
    for (const column of this.layout.columns) {
      const part = this.campaign.parts.find((one) => one.level === column.level && (one.name === "onward") === (column.key === "onward"));
      const words = partWords(part);
      const [short, long] = column.key === "onward" ? ["on", "from then on"] : [column.key, words];
      const title = `${words}: ${counted(column.plans, "plan")}`;
      const attributes = { type: "button", "aria-expanded": String(column.open), title, "aria-label": title };
      const button = element("button", attributes, column.width >= ROOM_FOR_WORDS ? long : short);
      button.addEventListener("click", () => this.toggle(column.key));
      const head = element("div", { role: "columnheader", class: "map-column" }, button);
      Object.assign(head.style, { left: `${column.left}px`, width: `${Math.max(column.width, 18)}px` });
      strips.append(head);
    }
    const label = element("div", { role: "columnheader", class: "map-label" }, "first fault \u2193  faults \u2192");
    return element("div", { role: "row", class: "map-head", "aria-rowindex": "1" }, label, strips);
  }

  /** @param {string} key */
  toggle(key) {
    if (!this.closed.delete(key)) this.closed.add(key);
    this.draw();
    const at = this.layout.columns.findIndex((column) => column.key === key);
    this.grid.querySelectorAll(".map-column button")[at]?.focus();
  }

  /** @param {Band} band @param {number} index */
  drawBand(band, index) {
    const row = this.layout.rows[band.row];
    const words = this.label(row);
    const label = element("div", { role: "rowheader", class: "map-label", title: row.point }, band.part === 0 ? words : `${words}, further`);
    const strips = element("div", { class: "map-strips", role: "presentation" }, ...band.strips.map((strip, at) => this.drawStrip(band, strip, index, at)));
    label.style.lineHeight = this.width < NARROW ? null : `${this.cell}px`;
    strips.style.height = `${band.height}px`;
    const made = element("div", { role: "row", class: row.kind === "wide" ? "map-band wide" : "map-band", "aria-rowindex": String(index + 2) }, label, strips);
    made.style.marginBottom = `${this.layout.gap}px`;
    return made;
  }

  /** @param {Band} band @param {Strip} strip @param {number} bandAt @param {number} stripAt */
  drawStrip(band, strip, bandAt, stripAt) {
    const words = stripWords(this.campaign, strip);
    const index = strip.column === null ? null : strip.column + 2;
    const made = element("div", { role: "gridcell", class: "strip", "aria-colindex": index, "aria-label": words });
    made.style.left = `${strip.left}px`;
    if (strip.slots === 0) {
      made.append(element("span", { class: "closed", title: words }, grouped(strip.numbers.length)));
      return made;
    }
    Object.assign(made.dataset, { band: String(bandAt), strip: String(stripAt) });
    const width = Math.min(strip.slots, strip.numbers.length) * this.cell;
    const height = Math.ceil(strip.numbers.length / strip.slots) * this.cell;
    const picture = svgElement("svg", { width, height, viewBox: `0 0 ${width} ${height}`, "aria-hidden": "true" });
    for (const [mark, d] of stripPaths(this.campaign, strip, this.cell)) picture.append(svgElement("path", { d, class: markClass(mark) }));
    const frames = strip.numbers.flatMap((number, at) => (this.firsts.has(number) ? [this.frameAt(strip, at)] : []));
    if (frames.length > 0) picture.append(svgElement("path", { d: frames.join(""), class: "frame-first" }));
    made.append(picture);
    return made;
  }

  /** @param {Strip} strip @param {number} index */
  frameAt(strip, index) {
    return framePath((index % strip.slots) * this.cell, Math.floor(index / strip.slots) * this.cell, this.cell);
  }

  /** @param {MouseEvent} event @returns {number|null} */
  planUnder(event) {
    const strip = /** @type {Element} */ (event.target).closest?.(".strip[data-band]");
    if (!strip) return null;
    const { left, top } = strip.getBoundingClientRect();
    const { band, strip: at } = /** @type {HTMLElement} */ (strip).dataset;
    return planIn(this.layout.bands[Number(band)].strips[Number(at)], this.cell, event.clientX - left, event.clientY - top);
  }

  /** Tells the plan under the pointer, or else the one that is selected. @param {number|null} number */
  point(number) {
    const told = number ?? this.selected;
    this.pointed.textContent = told === null ? HINT : this.tell(told);
  }

  /** @param {KeyboardEvent} event */
  press(event) {
    if (event.target !== this.grid || this.selected === null || event.altKey || event.metaKey) return;
    if (event.key === "Enter" || event.key === " ") this.choose(this.selected);
    else if (MOVES.has(event.key)) this.select(this.target(event));
    else return;
    event.preventDefault();
  }

  /** @param {KeyboardEvent} event */
  target({ key, ctrlKey }) {
    const numbers = [...this.layout.places.keys()];
    if (ctrlKey && key === "Home") return numbers[0];
    if (ctrlKey && key === "End") return numbers[numbers.length - 1];
    return planBeside(this.layout, /** @type {number} */ (this.selected), key);
  }

  /** @param {number} number */
  choose(number) {
    this.select(number);
    this.chosen(number);
  }

  /** Marks a plan, and those that it grew from. @param {number|null} number */
  select(number) {
    this.selected = number;
    this.drawSelection();
    this.point(null);
    this.grid.querySelector("#map-current")?.scrollIntoView({ block: "nearest", inline: "nearest" });
  }

  drawSelection() {
    for (const old of this.grid.querySelectorAll(".frame-selected, .frame-before, #map-current")) old.remove();
    this.grid.removeAttribute("aria-activedescendant");
    if (this.selected === null) return;
    let plan = this.campaign.plans[this.selected];
    this.frame(this.selected, "frame-selected");
    while (plan?.parent !== null && plan !== undefined) {
      this.frame(plan.parent, "frame-before");
      plan = this.campaign.plans[plan.parent];
    }
    this.drawCurrent(this.selected);
  }

  /** @param {number} number @returns {Element|null} */
  stripOf(number) {
    const place = this.layout.places.get(number);
    return place ? this.grid.querySelector(`.strip[data-band="${place.band}"][data-strip="${place.strip}"]`) : null;
  }

  /** @param {number} number @param {string} name */
  frame(number, name) {
    const place = this.layout.places.get(number);
    if (!place) return;
    const strip = this.layout.bands[place.band].strips[place.strip];
    this.stripOf(number)?.querySelector("svg")?.append(svgElement("path", { d: this.frameAt(strip, place.index), class: name }));
  }

  /** What a reader of screens is told: a cell that stands where the selected plan does. @param {number} number */
  drawCurrent(number) {
    const strip = this.stripOf(number);
    const place = placeOf(this.layout, number);
    if (!strip || !place) return;
    const band = this.layout.bands[this.layout.places.get(number).band];
    const current = element("div", { id: "map-current", role: "gridcell", "aria-label": this.tell(number), "aria-selected": "true" });
    Object.assign(current.style, { left: `${place.x}px`, top: `${place.y - band.top}px`, width: `${this.cell}px`, height: `${this.cell}px` });
    strip.parentElement.append(current);
    this.grid.setAttribute("aria-activedescendant", "map-current");
  }
}
