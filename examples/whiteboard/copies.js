/** Kinds and attributes of objects, from which objects can be made anew: copies, and the objects of a saved drawing. */

import { uniqueText } from "./links.js"
import { moveAttributes, placeOf, shapeOf, sizeOf } from "./shapes.js"

/** @typedef {{ kind: string, attributes: Map<string, any> }} Form */

/**
 * The form of a shown version. A line that sticks to shapes is as it is drawn.
 * @param {import("./board.js").Board} board
 * @returns {Form}
 */
export function formOf(board, name, version) {
  const shape = board.shapes(name)[board.shown(name).indexOf(version)]
  const more = shape.from + shape.to === "" ? {} : { ...placeOf(shape), ...sizeOf(shape) }
  return { kind: board.room.kind(name), attributes: new Map([...version.attributes, ...Object.entries(more)]) }
}

/**
 * The forms of objects like these, at some distance. Their groups are new ones, and lines stick to them alone.
 * @param {Form[]} forms @param {[number, number]} distance @returns {Form[]}
 */
export function anew(forms, [x, y]) {
  const shapes = forms.map(({ kind, attributes }) => shapeOf(kind, attributes))
  const ids = newTexts(shapes, "id")
  const maps = { group: newTexts(shapes, "group"), id: ids, from: ids, to: ids }
  return forms.map(({ kind, attributes }, place) => {
    const shape = shapes[place]
    const keys = Object.keys(maps).filter((key) => shape[key] !== "")
    const texts = keys.map((key) => [key, maps[key].get(shape[key]) ?? ""])
    const moved = x === 0 && y === 0 ? [] : Object.entries(moveAttributes(shape, x, y))
    return { kind, attributes: new Map([...attributes, ...moved, ...texts]) }
  })
}

/** By text that shapes have under a key: a new one for their copies. */
const newTexts = (shapes, key) =>
  new Map(shapes.map((shape) => shape[key]).filter((text) => text !== "").map((text) => [text, uniqueText()]))
