/** Handwriting: strokes of the pen that follow each other soon and near go into one object. */

import { boundsOf, grown, meet } from "./boxes.js"
import { boxOf, partsOf, simplify, withStroke } from "./pen.js"
import { shapeOf, styleAttributes } from "./shapes.js"

// A stroke that begins within this time after the end of the one before can go into the same object.
const SOON_MILLISECONDS = 2000
// It does if its box and that of the object are at most this many pixels of the window apart.
const NEAR_PIXELS = 40
// How far, in pixels, a simplified stroke may be from the pointer's path.
const SIMPLIFY_PIXELS = 0.3

export class Handwriting {
  // The change that drew the last stroke, and when that stroke ended.
  #last = null

  /** @param {import("./whiteboard.js").Page} page */
  constructor(page) {
    this.page = page
  }

  /**
   * Draws a stroke, as one step for undo: in the object of the last one, or in one or more new objects.
   * @param {[number, number][]} points of the pointer, on the drawing
   * @param {number} began when the pen touched the paper, in milliseconds of `performance.now()`
   */
  draw(points, began) {
    const stroke = simplify(points, SIMPLIFY_PIXELS / this.page.camera.scale)
    const change = this.#continue(stroke, began) ?? this.#begin(stroke, this.page.style.shapeOf("pen"))
    this.#last = change && { change, ended: performance.now() }
  }

  /** Makes new objects. Returns the change that made the last one, or null. */
  #begin(stroke, style) {
    const { changes } = this.page
    const look = { fill: style.fill, ...styleAttributes(style) }
    const create = ({ texts, ...box }) => changes.create("pen", { ...box, ...look, ...texts })
    return changes.step(() => partsOf(stroke).map(create)).at(-1)
  }

  /** Puts a stroke into the object of the last one. Returns null if it does not belong there or does not fit. */
  #continue(stroke, began) {
    const version = this.#lastVersion(began)
    if (version === null || !this.#isNear(version, stroke)) return null
    const attributes = withStroke(version.attributes, stroke)
    if (attributes === null) return null
    const change = this.page.changes.put(this.#last.change.object, version, attributes, { isKept: true })
    // The user may have chosen another colour before the refusal.
    const style = this.page.style.shapeOf("pen")
    change?.done.catch((refusal) => this.#keep(stroke, style, refusal))
    return change
  }

  /** The version that the last stroke made, if that was soon before and nobody has changed the object since. */
  #lastVersion(began) {
    if (this.#last === null || began - this.#last.ended > SOON_MILLISECONDS) return null
    const { room, style } = this.page
    const { object, version } = this.#last.change
    const versions = room.has(object) ? room.versions(object) : []
    const isSame = versions.length === 1 && versions[0] === version
    return isSame && looksLike(shapeOf("pen", version.attributes), style.shapeOf("pen")) ? version : null
  }

  #isNear(version, stroke) {
    const [x, y, width, height] = ["x", "y", "width", "height"].map((key) => version.attributes.get(key))
    const near = NEAR_PIXELS / this.page.camera.scale
    return meet(grown(boundsOf({ x, y, width, height }), near), boxOf(stroke))
  }

  /** A stroke that the room refused as a part of an object becomes an object of its own. */
  #keep(stroke, style, { word }) {
    if (word !== "closed" && word !== "another-room") this.#begin(stroke, style)
  }
}

const looksLike = (one, other) => one.fill === other.fill && one.thickness === other.thickness
