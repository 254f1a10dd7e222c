/**
 * Guides: while the user moves, resizes or draws a shape, its edges and its middle snap to those of the shapes in the
 * window. The lines to which it can snap are collected once, at the beginning of the drag.
 */

import { keyOf } from "./board.js"
import { boundsOf, sidesOf } from "./boxes.js"
import { canHold } from "./connections.js"
import { part, svg } from "./elements.js"

const PIXELS = 6
// Which lines a box has on each axis: its edges and its middle, as shares of its length.
const FIRST = [0]
const LAST = [1]
const ALL = [0, 0.5, 1]
const ALL_LINES = [ALL, ALL]
export const FIRST_EDGES = [FIRST, FIRST]
/** The lines of the edges that meet at a corner. */
export const edgesAt = (corner) => sidesOf(corner).map((isFirst) => (isFirst ? FIRST : LAST))
// Lines that are nearer than this are the same.
const SAME = 0.01
const AXES = [["x", "width", "y", "height"], ["y", "height", "x", "width"]]

/** @typedef {{ at: number, from: number, to: number }} Line its place, and where its shape begins and ends along it */

export class Snapping {
  // For each axis the lines of the shapes, sorted by place.
  #lines
  #camera

  /**
   * @param {import("./whiteboard.js").Page} page
   * @param {any[]} moved the objects that are moved
   */
  constructor({ board, camera }, moved) {
    const names = new Set(moved.map(keyOf))
    const isOther = ({ name, shapes }) => canHold(shapes[0].kind) && !names.has(keyOf(name))
    const boxes = board.drawn().filter(isOther).flatMap(({ shapes }) => shapes.map(boundsOf))
    const seen = boxes.filter((box) => camera.shows(box))
    this.#camera = camera
    this.#lines = AXES.map((axis) => seen.flatMap((box) => linesOf(box, axis, ALL)).sort(byPlace))
  }

  /**
   * How far a box has to move on each axis so that one of its own lines snaps. Shows the guides then.
   * @param {import("./boxes.js").Box} box
   * @param {number[][]} shares which of its lines can snap
   * @returns {[number, number]}
   */
  snap(box, shares = ALL_LINES) {
    const reach = PIXELS / this.#camera.scale
    const steps = AXES.map((axis, side) => stepOf(linesOf(box, axis, shares[side]), this.#lines[side], reach))
    const moved = { ...box, x: box.x + steps[0], y: box.y + steps[1] }
    this.#show(AXES.map((axis, side) => guidesOf(linesOf(moved, axis, shares[side]), this.#lines[side])))
    return steps
  }

  /** Shows no guides any more. */
  end() {
    part("guides").replaceChildren()
  }

  #show([upright, level]) {
    const lineOf = (x1, y1, x2, y2) => {
      const { x, y, width, height } = this.#camera.boxOf({ x: x1, y: y1, width: x2 - x1, height: y2 - y1 })
      return svg("line", { class: "guide", x1: x, y1: y, x2: x + width, y2: y + height })
    }
    part("guides").replaceChildren(...upright.map(({ at, from, to }) => lineOf(at, from, at, to)),
      ...level.map(({ at, from, to }) => lineOf(from, at, to, at)))
  }
}

const byPlace = (one, other) => one.at - other.at

/** The lines of a box across an axis. @returns {Line[]} */
function linesOf(box, [place, length, across, acrossLength], shares) {
  const [from, to] = [box[across], box[across] + box[acrossLength]]
  return shares.map((share) => ({ at: box[place] + share * box[length], from, to }))
}

/** The shortest step to a line within reach, or 0. */
function stepOf(own, lines, reach) {
  const steps = own.map(({ at }) => nearest(lines, at) - at)
  const shortest = steps.reduce((one, step) => (Math.abs(step) < Math.abs(one) ? step : one), Infinity)
  return Math.abs(shortest) <= reach ? shortest : 0
}

/** The place of the line that is nearest to a place. */
function nearest(lines, at) {
  const next = firstFrom(lines, at)
  const places = [lines[next - 1]?.at ?? -Infinity, lines[next]?.at ?? Infinity]
  return at - places[0] < places[1] - at ? places[0] : places[1]
}

/** The index of the first line at a place or behind it. */
function firstFrom(lines, at) {
  let [low, high] = [0, lines.length]
  while (low < high) {
    const middle = (low + high) >> 1
    if (lines[middle].at < at) low = middle + 1
    else high = middle
  }
  return low
}

/** The lines on which both the box and other shapes are now, each as long as all of these together. */
function guidesOf(own, lines) {
  return own.flatMap((line) => {
    const same = []
    for (let next = firstFrom(lines, line.at - SAME); lines[next]?.at <= line.at + SAME; next++) same.push(lines[next])
    if (same.length === 0) return []
    const all = [line, ...same]
    const from = all.reduce((least, one) => Math.min(least, one.from), Infinity)
    return [{ at: line.at, from, to: all.reduce((most, one) => Math.max(most, one.to), -Infinity) }]
  })
}
