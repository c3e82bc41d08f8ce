// How a verdict is marked: by a shape and a colour, so that either alone tells codes apart.

/** As many shapes there are, and as many colours (style.css has them as --code-0 and on). */
export const SHAPES = 8;

/**
 * @param {{verdict: string, code: string|null}} plan
 * @param {string[]} codes
 * @returns {number} 0 of a pass, 1 of what is unresolved, from 2 on of the codes in their order
 */
export function markOf({ verdict, code }, codes) {
  if (verdict === "pass") return 0;
  return verdict === "unresolved" ? 1 : 2 + Math.max(0, codes.indexOf(code));
}

/** The class that colours a mark: each shape comes in each colour before a mark comes again. @param {number} mark */
export function markClass(mark) {
  if (mark < 2) return mark === 0 ? "mark-pass" : "mark-unresolved";
  const code = mark - 2;
  return `mark-code-${(code + Math.floor(code / SHAPES)) % SHAPES}`;
}

/** @typedef {(x: number, y: number, s: number) => string} Shape */

/** @type {Shape[]} */
const CODE_SHAPES = [
  (x, y, s) => `M${x} ${y}h${s}v${s}h${-s}z`,
  (x, y, s) => `M${x + s / 2} ${y}l${s / 2} ${s / 2}l${-s / 2} ${s / 2}l${-s / 2} ${-s / 2}z`,
  (x, y, s) => `M${x + s / 2} ${y}l${s / 2} ${s}h${-s}z`,
  (x, y, s) => cross(x, y, s, s / 4),
  (x, y, s) => `M${x} ${y + s / 2}a${s / 2} ${s / 2} 0 1 0 ${s} 0a${s / 2} ${s / 2} 0 1 0 ${-s} 0z`,
  (x, y, s) => `M${x} ${y}h${s}l${-s / 2} ${s}z`,
  (x, y, s) => `M${x} ${y}h${s}v${s * 0.35}h${-s}zM${x} ${y + s * 0.65}h${s}v${s * 0.35}h${-s}z`,
  (x, y, s) => `M${x} ${y}h${s}l${-s} ${s}h${s}z`,
];

/** @param {number} x @param {number} y @param {number} s @param {number} w */
function cross(x, y, s, w) {
  const arm = s / 2 - w;
  const turns = [[w, -w], [arm, arm], [arm, -arm], [w, w], [-arm, arm], [arm, arm], [-w, w], [-arm, -arm], [-arm, arm], [-w, -w], [arm, -arm]];
  return `M${x} ${y + w}${turns.map(([right, down]) => `l${right} ${down}`).join("")}z`;
}

/**
 * The outline of a mark in a cell: a pass is a small square, what is unresolved a frame, each code a shape of its own.
 * @param {number} mark
 * @param {number} x
 * @param {number} y
 * @param {number} cell
 */
export function markPath(mark, x, y, cell) {
  if (mark === 0) {
    const side = Math.round(cell / 3);
    const inset = (cell - side) / 2;
    return `M${x + inset} ${y + inset}h${side}v${side}h${-side}z`;
  }
  const side = cell - 3;
  if (mark > 1) return CODE_SHAPES[(mark - 2) % SHAPES](x + 1.5, y + 1.5, side);
  const inner = side - 4;
  return `M${x + 1.5} ${y + 1.5}h${side}v${side}h${-side}zM${x + 3.5} ${y + 3.5}v${inner}h${inner}v${-inner}z`;
}

/** A frame around a cell. @param {number} x @param {number} y @param {number} cell */
export function framePath(x, y, cell) {
  return `M${x} ${y}h${cell}v${cell}h${-cell}z`;
}
