/**
 * The meaning of attributes on the whiteboard. The server does not know it; all pages agree on it. `x` and `y` are the
 * position, `width` and `height` the size, all integers. `fill` is the colour, `outline` that of a shape's edge, and
 * `thickness` the width of lines and edges. `name` is the text on the shape, and `size` the size of its letters.
 * `arrow` says which ends of a line have arrows. `z`, an integer, is the order from back to front. groups.js has the
 * meaning of `group`, connections.js that of `id`, `from` and `to`, texts.js that of `name-2` and the like, and pen.js
 * that of `points-0` and the like. A shape of the kind `text` is as large as its text. Its `width` is where lines are
 * broken, if the user has chosen that.
 */

import { boundsOf, sidesOf } from "./boxes.js"
import { TEXT_SIZES, USUAL_SIZE, sizeOfText } from "./lettering.js"
import { strokesIn } from "./pen.js"
import { textIn } from "./texts.js"

const FAR = 100000
const PLAIN = "#c9d1d9"

/** The least width or height of a new or resized shape. */
export const LEAST = 6

/** By tool: the kind of what it draws, its arrows, and its width and height if it is drawn by a click or by a key. */
export const NEW_SHAPES = {
  rect: { kind: "rect", arrow: "", usualSize: [180, 120] },
  ellipse: { kind: "ellipse", arrow: "", usualSize: [160, 120] },
  line: { kind: "line", arrow: "", usualSize: [180, 90] },
  arrow: { kind: "line", arrow: "end", usualSize: [180, 90] },
}

/** The values of `thickness`, and how many times the usual width of a line each is. */
export const THICKNESSES = { thin: 0.5, medium: 1, thick: 2 }
export const USUAL_THICKNESS = "medium"

/** The value of `fill` of a shape of which only the outline is drawn. */
export const NO_FILL = "none"
const AREAS = ["rect", "ellipse"]

/** Whether a shape has a fill and an outline. */
export const isArea = ({ kind }) => AREAS.includes(kind)

/** The values of `arrow`, with their names. */
export const ARROW_WORDS = new Map([["", "Line"], ["end", "Arrow"], ["both", "Double arrow"]])

const EIGHTH = Math.PI / 4

/** The colours of the palette, with their names. */
export const COLOURS = new Map([
  ["#e4572e", "red"], ["#f2b134", "yellow"], ["#4c9f70", "green"], ["#3a86c8", "blue"], ["#8d6cab", "violet"],
  ["#c9d1d9", "grey"], ["#1d2733", "black"],
])

/** The defaults for missing attributes. */
export const USUAL = { x: 0, y: 0, width: 120, height: 80, fill: PLAIN, name: "", z: 0 }

/**
 * Width and height as Shift makes them: equal, or of a line in a multiple of 45 degrees.
 * @returns {[number, number]}
 */
export function regularSize(kind, [width, height]) {
  if (kind !== "line") {
    const side = Math.max(Math.abs(width), Math.abs(height))
    return [Math.sign(width) * side || side, Math.sign(height) * side || side]
  }
  const angle = Math.round(Math.atan2(height, width) / EIGHTH) * EIGHTH
  const length = Math.cos(angle) * width + Math.sin(angle) * height
  return [length * Math.cos(angle), length * Math.sin(angle)]
}

/** The position of a shape as attributes. */
export const placeOf = ({ x, y }) => ({ x: Math.round(x), y: Math.round(y) })

/** The size of a shape as attributes. */
export const sizeOf = ({ width, height }) => ({ width: Math.round(width), height: Math.round(height) })

/** All attributes of a new shape. */
export const attributesOf = (shape) => ({
  ...placeOf(shape), ...sizeOf(shape), fill: shape.fill, name: shape.text, ...(shape.arrow && { arrow: shape.arrow }),
  ...(shape.from && { from: shape.from }), ...(shape.to && { to: shape.to }), ...styleAttributes(shape),
})

/** The attributes of a style that are not the usual ones. */
export const styleAttributes = ({ outline = "", thickness = USUAL_THICKNESS, size = USUAL_SIZE }) => ({
  ...(outline && { outline }), ...(thickness !== USUAL_THICKNESS && { thickness }),
  ...(size !== USUAL_SIZE && { size }),
})

/** Whether a value is a colour that the page can draw. */
export const isColour = (value) => /^#[0-9a-f]{6}$/.test(value)

/** Clamps a number to the drawable range. Anything else gives the default. */
function wholeOf(value, usual) {
  if (typeof value !== "number" && typeof value !== "bigint") return usual
  return Math.max(-FAR, Math.min(FAR, Number(value)))
}

/**
 * Makes a shape from attributes. Missing or malformed attributes get drawable defaults.
 * @param {string} kind @param {Map<string, unknown>} attributes
 */
export function shapeOf(kind, attributes) {
  const whole = (key) => wholeOf(attributes.get(key), USUAL[key])
  const textAt = (key) => String(attributes.get(key) ?? "")
  const fill = attributes.get("fill")
  const shape = {
    kind, x: whole("x"), y: whole("y"), width: whole("width"), height: whole("height"), z: whole("z"),
    fill: isColour(fill) || (fill === NO_FILL && isArea({ kind })) ? fill : PLAIN,
    outline: isColour(attributes.get("outline")) ? attributes.get("outline") : "",
    thickness: Object.hasOwn(THICKNESSES, attributes.get("thickness")) ? attributes.get("thickness") : USUAL_THICKNESS,
    text: textIn(attributes),
    size: Object.hasOwn(TEXT_SIZES, attributes.get("size")) ? attributes.get("size") : USUAL_SIZE,
    group: textAt("group"), id: textAt("id"), from: textAt("from"), to: textAt("to"),
    arrow: kind === "line" && ARROW_WORDS.has(attributes.get("arrow")) ? attributes.get("arrow") : "",
    strokes: kind === "pen" ? strokesIn(attributes) : [],
  }
  if (kind !== "text") return shape
  const width = attributes.has("width") ? Math.max(LEAST, shape.width) : null
  return { ...shape, ...sizeOfText(shape.text, shape.size, width) }
}

/** The shape of a version with other attributes. */
export function withAttributes(shape, version, attributes) {
  // Reading the strokes of a pen again would take long.
  if (Object.keys(attributes).every((key) => key === "x" || key === "y")) return { ...shape, ...attributes }
  return shapeOf(shape.kind, new Map([...version.attributes, ...Object.entries(attributes)]))
}

/** The attributes that a move sets: always both x and y. So no version can combine x of one move with y of another. */
export const moveAttributes = (shape, x, y) => placeOf({ x: shape.x + x, y: shape.y + y })

/**
 * The attributes that a move of a line sets which sticks to shapes. An end stays at a shape that is moved too, and is
 * released from others.
 * @param {Set<string>} moved the texts of the shapes that are moved
 */
export function moveLineAttributes(line, x, y, moved) {
  const stays = (text) => text !== "" && moved.has(text)
  if (stays(line.from) && stays(line.to)) return {}
  const released = ["from", "to"].filter((key) => line[key] !== "" && !stays(line[key])).map((key) => [key, ""])
  return { ...moveAttributes(line, x, y), ...sizeOf(line), ...Object.fromEntries(released) }
}

/**
 * The attributes that a resize by a corner sets: always both width and height, and the position if it changes. It can
 * be regular, as with Shift.
 */
export function resizeAttributes(shape, x, y, isRegular = false, corner = "end") {
  if (shape.kind === "text") return { width: Math.max(LEAST, Math.round(shape.width + x)) }
  const newShape = resized(shape, [x, y], isRegular, corner)
  // A line that sticks to a shape is elsewhere than its attributes say.
  const isMoved = newShape.x !== shape.x || newShape.y !== shape.y || Boolean(shape.from || shape.to)
  return { ...(isMoved ? placeOf(newShape) : {}), ...sizeOf(newShape) }
}

/** The attributes that a drag of an end of a line sets. The other end stays. */
export function lineEndAttributes(line, end, [x, y], isRegular = false) {
  if (end !== "start") return resizeAttributes(line, x, y, isRegular)
  const size = [line.width - x, line.height - y]
  const [width, height] = isRegular ? regularSize("line", size) : size
  const moved = { x: line.x + line.width - width, y: line.y + line.height - height, width, height }
  return { ...placeOf(moved), ...sizeOf(moved) }
}

/** The resized shape: the opposite corner stays. Only a line may have a negative width or height. */
function resized(shape, [x, y], isRegular, corner) {
  const box = shape.kind === "line" ? shape : boundsOf(shape)
  const [isLeft, isTop] = sidesOf(corner)
  const size = [box.width + (isLeft ? -x : x), box.height + (isTop ? -y : y)]
  const wanted = isRegular ? regularSize(shape.kind, size) : size
  if (shape.kind === "line") return { ...shape, width: wanted[0], height: wanted[1] }
  const [width, height] = wanted.map((length) => Math.max(LEAST, Math.round(length)))
  const place = {
    x: isLeft ? box.x + box.width - width : box.x, y: isTop ? box.y + box.height - height : box.y,
  }
  return { ...shape, ...place, width, height }
}
