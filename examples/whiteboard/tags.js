/** Places the tags of versions so that none covers another. */

import { between } from "./boxes.js"
import { FINGER, isCoarse } from "./preferences.js"

/** The width and height of a tag, in pixels. */
export const SIDE = isCoarse() ? FINGER : 28
const REACH = 9
// Offsets that are tried around the wanted position, the nearest first.
const STEPS = stepsWithin(REACH)
const ROUND = stepsWithin(1)

/**
 * Finds a position for each tag: the wanted one, or the nearest free one inside the window. Null if there is none.
 * @param {{ x: number, y: number }[]} wanted the centres of the tags, the most important first
 * @param {{ width: number, height: number }} window
 * @returns {({ x: number, y: number } | null)[]}
 */
export function freePlaces(wanted, window) {
  const taken = new Map()
  return wanted.map((place) => {
    const free = freePlace(place, window, taken)
    if (free !== null) take(free, taken)
    return free
  })
}

/** The centres of so many tags in rows above a box, from left to right and from top to bottom. */
export function rowsAbove(count, { x, y, width }) {
  const columns = Math.max(3, Math.ceil(Math.sqrt(count)), Math.floor(width / SIDE))
  const top = y - Math.ceil(count / columns) * SIDE
  const placeOf = (column, row) => ({ x: x + (column + 0.5) * SIDE, y: top + (row + 0.5) * SIDE })
  return Array.from({ length: count }, (_, place) => placeOf(place % columns, Math.floor(place / columns)))
}

function stepsWithin(reach) {
  const numbers = Array.from({ length: 2 * reach + 1 }, (_, place) => place - reach)
  const steps = numbers.flatMap((x) => numbers.map((y) => [x, y]))
  return steps.sort(([x, y], [otherX, otherY]) => Math.hypot(x, y) - Math.hypot(otherX, otherY))
}

function freePlace({ x, y }, { width, height }, taken) {
  for (const [right, down] of STEPS) {
    const place = {
      x: between(SIDE / 2, x + right * SIDE, width - SIDE / 2),
      y: between(SIDE / 2, y + down * SIDE, height - SIDE / 2),
    }
    if (isFree(place, taken)) return place
  }
  return null
}

// Taken positions by grid cell. Only the neighbouring cells can have a tag that overlaps.
const squareOf = ({ x, y }) => [Math.floor(x / SIDE), Math.floor(y / SIDE)]

function take(place, taken) {
  const square = squareOf(place).join()
  taken.set(square, [...(taken.get(square) ?? []), place])
}

function isFree(place, taken) {
  const [column, row] = squareOf(place)
  const near = ROUND.flatMap(([right, down]) => taken.get(`${column + right},${row + down}`) ?? [])
  return near.every(({ x, y }) => Math.abs(x - place.x) >= SIDE || Math.abs(y - place.y) >= SIDE)
}
