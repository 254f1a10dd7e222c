/**
 * What a person draws at the moment, as a list in the person's note:
 *
 *     [WORD,COLOUR,MADE,X,Y,WIDTH,HEIGHT]     a shape: rect, ellipse, line or arrow
 *     ["pen",COLOUR,MADE,X,Y,DX,DY,DX,DY,..]  a stroke: its first point, and the steps to the next ones
 *
 * COLOUR has six hexadecimal digits, or none for a shape without a fill. MADE is how many operations the person had
 * made before: a page that shows more of them shows the end of it. A note is short, so a stroke is simplified, and a
 * long one is shown from its last points.
 */

import { LIMITS } from "../../clients/js/grace.js"
import { between, boundsOf } from "./boxes.js"
import { boxOf, simplify } from "./pen.js"
import { NEW_SHAPES, NO_FILL, isArea, isColour } from "./shapes.js"

const FAR = 100000
const PEN = "pen"
// How far, in units of the drawing, a simplified stroke may be from the pen's way: the first that makes it fit.
const DISTANCES = [1, 2, 4, 8, 16]
const SIDES = ["x", "y", "width", "height"]

/** @typedef {{ kind: string, arrow?: string, fill: string, points?: [number, number][] } & object} Sketch */

/**
 * @param {any} sketch a shape, or for a stroke its `points`, with `made`
 * @param {number} most bytes of JSON
 * @returns {any[]}
 */
export function listOfSketch(sketch, most) {
  const { kind, arrow, fill, made, points } = sketch
  const head = [arrow ? "arrow" : kind, fill === NO_FILL ? "" : fill.slice(1), made]
  if (kind !== PEN) return [...head, ...SIDES.map((side) => inRange(sketch[side]))]
  const isFitting = (some) => JSON.stringify([...head, ...stepsOf(some)]).length <= most
  return [...head, ...stepsOf(fittingPoints(points, isFitting))]
}

/** The points of a stroke that fit. */
function fittingPoints(points, isFitting) {
  let shown = points
  for (const distance of DISTANCES) {
    shown = simplify(shown, distance)
    if (isFitting(shown)) return shown
  }
  const first = shown.findIndex((_, place) => isFitting(shown.slice(place)))
  return shown.slice(first < 0 ? -1 : first)
}

/** Reads such a list, which anybody can have written. @returns {any} null if it is none */
export function sketchIn(list) {
  if (!Array.isArray(list)) return null
  const [word, digits, made, ...numbers] = list
  const fill = digits === "" && isArea({ kind: word }) ? NO_FILL : `#${digits}`
  const isWhole = Number.isInteger(made) && made >= 0 && made <= LIMITS.entries
  const isNear = (number) => Number.isInteger(number) && Math.abs(number) <= 2 * FAR
  if (!(fill === NO_FILL || isColour(fill)) || !isWhole || !numbers.every(isNear)) return null
  if (word === PEN) return numbers.length >= 2 && numbers.length % 2 === 0 ? strokeOf(fill, made, numbers) : null
  if (!Object.hasOwn(NEW_SHAPES, word) || numbers.length !== SIDES.length) return null
  const { kind, arrow } = NEW_SHAPES[word]
  return { kind, arrow, fill, made, ...Object.fromEntries(SIDES.map((side, place) => [side, numbers[place]])) }
}

const inRange = (number) => between(-FAR, Math.round(number), FAR)

function stepsOf(points) {
  const whole = points.map((point) => point.map(inRange))
  return whole.flatMap(([x, y], place) => (place === 0 ? [x, y] : [x - whole[place - 1][0], y - whole[place - 1][1]]))
}

function strokeOf(fill, made, [x, y, ...steps]) {
  const points = [[x, y]]
  for (let place = 0; place < steps.length; place += 2) {
    const [lastX, lastY] = points.at(-1)
    points.push([lastX + steps[place], lastY + steps[place + 1]])
  }
  const box = boundsOf(boxOf(points))
  return { kind: PEN, fill, made, ...box, strokes: [points.map((point) => [point[0] - box.x, point[1] - box.y])] }
}
