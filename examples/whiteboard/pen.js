/**
 * Strokes of the pen. An object has one or more strokes. Their points are stored as strings such as `0,12 5,20 / 9,0`:
 * integers relative to the upper left corner of all, with `/` where the pen was lifted. A string has at most 256 bytes,
 * and a new object at most 16 attributes. So an object has at most eight such strings, and a longer stroke becomes
 * several objects.
 */

import { boundsOfAll } from "./boxes.js"

const TEXT_BYTES = 256
const TEXTS = 8
const MOST = 99999
const LIFTED = "/"
const POINT = /^\d{1,5},\d{1,5}$/
const keyOfText = (place) => `points-${place}`
export const POINT_KEYS = Array.from({ length: TEXTS }, (_, place) => keyOfText(place))

/** @typedef {[number, number][]} Stroke its points, on the drawing or relative to the corner of an object */
/** @typedef {{ x: number, y: number, width: number, height: number }} Box */

/**
 * Reads the strokes from attributes, and ignores malformed points.
 * @param {Map<string, unknown>} attributes
 * @returns {Stroke[]} without empty ones
 */
export function strokesIn(attributes) {
  const texts = POINT_KEYS.map((key) => attributes.get(key)).filter((text) => typeof text === "string")
  let stroke = []
  const strokes = [stroke]
  for (const word of texts.flatMap((text) => text.split(" "))) {
    if (POINT.test(word)) stroke.push(pointOf(word))
    else if (word === LIFTED) strokes.push((stroke = []))
  }
  return strokes.filter(({ length }) => length > 0)
}

/** @returns {[number, number]} */
function pointOf(word) {
  const comma = word.indexOf(",")
  return [Number(word.slice(0, comma)), Number(word.slice(comma + 1))]
}

/**
 * Splits a stroke into one or more parts, each for an object. Each starts where the one before ends.
 * @param {Stroke} points on the drawing
 * @returns {(Box & { texts: Record<string, string> })[]}
 */
export function partsOf(points) {
  const whole = rounded(points)
  const { x, y } = boxOf(whole)
  // Relative to the corner of a part the numbers are no larger than relative to the whole stroke's corner.
  const words = whole.map((point) => wordOf(point, x, y))
  const parts = []
  let first = 0
  do {
    const end = endOfPart(words, first)
    parts.push(partOf([whole.slice(first, end)]))
    first = end - 1
  } while (first < words.length - 1)
  return parts
}

/**
 * The attributes that a further stroke changes in an object; null if it does not fit. Position and size are set whole
 * or not at all, so no version combines those of two changes.
 * @param {Map<string, any>} attributes of the object, in the size in which it was drawn
 * @param {Stroke} points on the drawing
 * @returns {Record<string, any> | null}
 */
export function withStroke(attributes, points) {
  const [left, top] = [attributes.get("x"), attributes.get("y")]
  const before = strokesIn(attributes).map((stroke) => stroke.map(([x, y]) => [left + x, top + y]))
  const { texts, x, y, width, height } = partOf([...before, rounded(points)])
  if (Object.keys(texts).length > TEXTS || Math.max(width, height) > MOST) return null
  const groups = [{ x, y }, { width, height }, ...Object.entries(texts).map(([key, text]) => ({ [key]: text }))]
  const isOther = (group) => Object.entries(group).some(([key, value]) => attributes.get(key) !== value)
  return Object.assign({}, ...groups.filter(isOther))
}

/** Simplifies a line: each removed point is within this distance of the result. */
export function simplify(points, distance) {
  const kept = new Set([0, points.length - 1])
  const parts = [[0, points.length - 1]]
  while (parts.length > 0) {
    const [first, last] = parts.pop()
    const farthest = farthestFrom(points, first, last)
    if (farthest === null || farthest.distance <= distance) continue
    kept.add(farthest.place)
    parts.push([first, farthest.place], [farthest.place, last])
  }
  return points.filter((_, place) => kept.has(place))
}

/**
 * The SVG path of strokes. A single point gives a dot.
 * @param {Stroke[]} strokes
 */
export const pathOf = (strokes) => strokes.map(pathOfStroke).join(" ")

function pathOfStroke(stroke) {
  const [first, ...others] = stroke.map(([x, y]) => `${x} ${y}`)
  return `M ${first} L ${others.length === 0 ? first : others.join(" L ")}`
}

/** The bounding box of points. */
export const boxOf = (points) => boundsOfAll(points.map(([x, y]) => ({ x, y, width: 0, height: 0 })))

const rounded = (points) => points.map(([x, y]) => [Math.round(x), Math.round(y)])

const wordOf = ([x, y], left, top) => `${Math.min(MOST, x - left)},${Math.min(MOST, y - top)}`

/** Position, size and strings of an object with these strokes. */
function partOf(strokes) {
  const box = boxOf(strokes.flat())
  const wordsOf = (stroke) => stroke.map((point) => wordOf(point, box.x, box.y))
  const words = strokes.flatMap((stroke, place) => (place === 0 ? wordsOf(stroke) : [LIFTED, ...wordsOf(stroke)]))
  return { ...box, texts: Object.fromEntries(textsOf(words).map((text, place) => [keyOfText(place), text])) }
}

/** The end of the part that starts at this index: as many points as fit into one object. */
function endOfPart(words, first) {
  let [texts, bytes, end] = [1, words[first].length, first + 1]
  for (; end < words.length; end++) {
    bytes += 1 + words[end].length
    if (bytes <= TEXT_BYTES) continue
    if (texts === TEXTS) break
    texts += 1
    bytes = words[end].length
  }
  return end
}

/** Joins the words into as few strings as possible. */
function textsOf(words) {
  const texts = [words[0]]
  for (const word of words.slice(1)) {
    const longer = `${texts.at(-1)} ${word}`
    if (longer.length <= TEXT_BYTES) texts[texts.length - 1] = longer
    else texts.push(word)
  }
  return texts
}

/** The point between two others that is farthest from the line through them, or null if there is none. */
function farthestFrom(points, first, last) {
  let farthest = null
  for (let place = first + 1; place < last; place++) {
    const distance = distanceTo(points[place], points[first], points[last])
    if (farthest === null || distance > farthest.distance) farthest = { place, distance }
  }
  return farthest
}

function distanceTo([x, y], [startX, startY], [endX, endY]) {
  const [wide, high] = [endX - startX, endY - startY]
  const square = wide * wide + high * high
  const along = square === 0 ? 0 : Math.max(0, Math.min(1, ((x - startX) * wide + (y - startY) * high) / square))
  return Math.hypot(x - startX - along * wide, y - startY - along * high)
}
