/** SVG elements of shapes and of the text on them. */

import { boundsOf, middleOf } from "./boxes.js"
import { svg } from "./elements.js"
import { FONT, LINE, TEXT_SIZES, lettering, linesOf } from "./lettering.js"
import { pathOf } from "./pen.js"
import { NO_FILL, THICKNESSES, USUAL_THICKNESS } from "./shapes.js"

const LEAST_WIDTH = 90
// A text on a line is never broken within this width, and the line is interrupted around its letters.
const LEAST_ON_LINE = 180
const LINE_GAP = 10
const LINES = ["line", "pen"]
const LINE_WIDTH = 4
const EDGE_WIDTH = 2
// An arrow's lines, in units of the drawing, and their angle to the line, in radians.
const HEAD_LENGTH = 18
const HEAD_ANGLE = 0.45
const INK = "#1d2733"
export const PAPER_COLOUR = "#ffffff"
// On a colour darker than this (0 to 255) the text is light.
const DARK = 140

// The last stroke's element without its path.
let lastStroke = svg("path")

/** What the style sheet gives the edge of a shape, a line, and letters. A picture without style sheet has it too. */
export const EDGE_STYLE = { stroke: "#000000", "stroke-opacity": 0.45, "stroke-width": EDGE_WIDTH }
export const LINE_STYLE = {
  fill: "none", "stroke-width": LINE_WIDTH, "stroke-linecap": "round", "stroke-linejoin": "round",
}
export const FONT_STYLE = {
  "font-family": FONT, "dominant-baseline": "central", "paint-order": "stroke", "stroke-width": 3,
  "stroke-linejoin": "round",
}

/** The element of a shape. */
export function bodyOf(shape, name = "body") {
  const { kind, x, y, width, height, fill } = shape
  const style = styleOf(shape)
  if (kind === "line") {
    const ends = { x1: x, y1: y, x2: x + width, y2: y + height }
    if (!shape.arrow) return svg("line", { class: `${name} stroke`, ...ends, style })
    return svg("path", { class: `${name} stroke`, d: pathOfArrow(shape), style })
  }
  const box = boundsOf(shape)
  if (kind === "pen") return strokeWith(`${name} stroke`, style, pathOf(strokesIn(shape, box)))
  if (kind === "text") return svg("rect", { class: `${name} unseen-body`, ...box, fill: "none" })
  if (kind === "ellipse") {
    const [rx, ry] = [box.width / 2, box.height / 2]
    return svg("ellipse", { class: name, cx: box.x + rx, cy: box.y + ry, rx, ry, fill, style })
  }
  return svg("rect", { class: name, ...box, rx: 6, fill, style })
}

/** The element of a stroke. A copy of the one before shares its style, which the browser then reads once for all. */
function strokeWith(name, style, d) {
  const isAlike = lastStroke.getAttribute("class") === name && lastStroke.getAttribute("style") === style
  if (!isAlike) lastStroke = svg("path", { class: name, style })
  const stroke = lastStroke.cloneNode()
  stroke.setAttribute("d", d)
  return stroke
}

/** The colour and the width of a line, or of a shape's edge, where they are not those of the style sheet. */
function styleOf({ kind, fill, outline = "", thickness = USUAL_THICKNESS }) {
  const isLine = LINES.includes(kind)
  const colour = isLine ? fill : outline
  const width = (isLine ? LINE_WIDTH : EDGE_WIDTH) * THICKNESSES[thickness]
  return `${colour && `stroke: ${colour};`} ${thickness === USUAL_THICKNESS ? "" : `stroke-width: ${width}`}`.trim()
}

/** The element of a shape without its colour. */
export function outlineOf(shape, name) {
  const outline = bodyOf({ ...shape, fill: "none" }, name)
  outline.removeAttribute("style")
  return outline
}

/** Whether a shape is only a line or an edge, which is hard to hit with the pointer. */
export const isThin = ({ kind, fill }) => LINES.includes(kind) || fill === NO_FILL

/** The path of a line with its arrows. */
function pathOfArrow({ x, y, width, height, arrow }) {
  const [start, end] = [[x, y], [x + width, y + height]]
  const heads = arrow === "both" ? [headOf(start, end), headOf(end, start)] : [headOf(end, start)]
  return [`M ${start} L ${end}`, ...heads].join(" ")
}

/** The two lines of an arrow at a point, on the way from another one. */
function headOf([x, y], [fromX, fromY]) {
  const length = Math.min(HEAD_LENGTH, Math.hypot(x - fromX, y - fromY) / 2)
  const angle = Math.atan2(fromY - y, fromX - x)
  const [left, right] = [angle - HEAD_ANGLE, angle + HEAD_ANGLE]
    .map((one) => [x + length * Math.cos(one), y + length * Math.sin(one)])
  return `M ${left} L ${[x, y]} L ${right}`
}

/** The strokes of the pen on the drawing, scaled to fill their box. */
function strokesIn({ strokes }, { x, y, width, height }) {
  if (strokes.length === 0) return [[[x, y]]]
  const [right, bottom] = [mostOf(strokes, 0), mostOf(strokes, 1)]
  const [wide, high] = [right && width / right, bottom && height / bottom]
  return strokes.map((stroke) => stroke.map((point) => [x + point[0] * wide, y + point[1] * high]))
}

/** How far strokes reach to the right (0) or down (1). */
function mostOf(strokes, side) {
  let most = 0
  for (const stroke of strokes) for (const point of stroke) most = Math.max(most, point[side])
  return most
}

/** The text of a shape. One that stands for itself begins at its corner; on others it is made to fit. */
export function textOf(shape) {
  const box = boundsOf(shape)
  const isAlone = shape.kind === "text"
  const [middle, centre] = middleOf(box)
  const { size, lines } = isAlone ? letteringAlone(shape) : letteringOn(shape, box)
  const x = isAlone ? box.x : middle
  const top = isAlone ? box.y + (size * LINE) / 2 : centre - ((lines.length - 1) * size * LINE) / 2
  const spans = lines.map((line, place) => {
    const span = svg("tspan", { x, y: top + place * size * LINE })
    span.textContent = line
    return span
  })
  const [ink, ground] = inksOf(shape)
  const anchor = isAlone ? "start" : "middle"
  const gap = LINES.includes(shape.kind) ? `; stroke-width: ${LINE_GAP}px` : ""
  const style = `fill: ${ink}; stroke: ${ground}; text-anchor: ${anchor}${gap}`
  return svg("text", { class: "name", "font-size": size, style }, ...spans)
}

/** On a line or a stroke the letters have the size that the user chose. On a shape they fit it. */
function letteringOn({ kind, text, size }, { width, height }) {
  const isLine = LINES.includes(kind)
  return lettering(text, Math.max(isLine ? LEAST_ON_LINE : LEAST_WIDTH, width - 14), isLine ? Infinity : height, size)
}

function letteringAlone({ text, width, size }) {
  return { size: TEXT_SIZES[size], lines: linesOf(text, width, TEXT_SIZES[size]) }
}

/** The colours of the text and its outline. A thin shape, and a text alone, have the paper's colour behind letters. */
function inksOf(shape) {
  if (shape.kind === "text") return [shape.fill, PAPER_COLOUR]
  if (isThin(shape)) return [INK, PAPER_COLOUR]
  const [red, green, blue] = [1, 3, 5].map((place) => parseInt(shape.fill.slice(place, place + 2), 16))
  return [0.3 * red + 0.59 * green + 0.11 * blue < DARK ? PAPER_COLOUR : INK, shape.fill]
}
