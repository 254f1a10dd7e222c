/**
 * Aligns the selected objects, or spaces them evenly, in one step. A group moves as a whole. A line that sticks to
 * shapes follows them.
 */

import { boundsOfAll } from "./boxes.js"
import { groupOf } from "./groups.js"
import { moveAttributes } from "./shapes.js"

const LENGTHS = { x: "width", y: "height" }

/** By name: the axis, and which part of the box is aligned, from its beginning to its end. */
export const SIDES = {
  left: ["x", 0], centre: ["x", 0.5], right: ["x", 1], top: ["y", 0], middle: ["y", 0.5], bottom: ["y", 1],
}

/** By name: the axis along which objects are spaced. */
export const WAYS = { across: "x", down: "y" }

export class Alignment {
  /** @param {import("./whiteboard.js").Page} page */
  constructor(page) {
    this.page = page
  }

  /** How many objects and groups can be aligned. */
  get count() {
    return this.#units().length
  }

  /** @param {keyof SIDES} side */
  align(side) {
    const [axis, share] = SIDES[side]
    const units = this.#units()
    const lineOf = (box) => box[axis] + share * box[LENGTHS[axis]]
    const line = lineOf(boundsOfAll(units.map(({ box }) => box)))
    this.#move(units, axis, ({ box }) => line - lineOf(box))
  }

  /** Leaves as much space between each two neighbours. The first and the last stay. @param {keyof WAYS} way */
  space(way) {
    const [axis, length] = [WAYS[way], LENGTHS[WAYS[way]]]
    const middle = ({ box }) => box[axis] + box[length] / 2
    const units = this.#units().sort((one, other) => middle(one) - middle(other))
    const all = boundsOfAll(units.map(({ box }) => box))
    const used = units.reduce((sum, { box }) => sum + box[length], 0)
    const gap = (all[length] - used) / (units.length - 1)
    let place = all[axis]
    const places = new Map()
    for (const unit of units) {
      places.set(unit, place)
      place += unit.box[length] + gap
    }
    this.#move(units, axis, (unit) => places.get(unit) - unit.box[axis])
  }

  /** What moves as a whole: objects, and groups of them. */
  #units() {
    const { board } = this.page
    const byGroup = new Map()
    for (const { name, version } of board.chosen) {
      const shape = board.shapes(name)[board.shown(name).indexOf(version)]
      if (shape.from !== "" || shape.to !== "") continue
      const group = groupOf(board, name) || String(name)
      byGroup.set(group, [...(byGroup.get(group) ?? []), { name, version, shape }])
    }
    return [...byGroup.values()].map((items) => ({ items, box: boundsOfAll(items.map(({ shape }) => shape)) }))
  }

  #move(units, axis, distanceOf) {
    const { changes } = this.page
    changes.step(() => {
      for (const unit of units) {
        const by = Math.round(distanceOf(unit))
        const [x, y] = axis === "x" ? [by, 0] : [0, by]
        if (by === 0) continue
        for (const { name, version, shape } of unit.items) changes.put(name, version, moveAttributes(shape, x, y))
      }
    })
  }
}
