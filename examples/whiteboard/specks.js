/** Dots for shapes that are too small to see. They are drawn again only when the scale or their objects change. */

import { keyOf } from "./board.js"
import { boundsOf, middleOf } from "./boxes.js"
import { setAttribute, svg } from "./elements.js"
import { letterOf } from "./words.js"

const SPECK = 7

export class Specks {
  // By the shapes of an object: its dots.
  #dots = new Map()
  // What was drawn last.
  #drawn = null
  #scale = 0

  /**
   * @param {{ board: import("./board.js").Board, camera: import("./camera.js").Camera }} parts
   * @param {Element} layer
   */
  constructor({ board, camera }, layer) {
    Object.assign(this, { board, camera, layer })
  }

  draw() {
    const { x, y, scale } = this.camera
    setAttribute(this.layer, "transform", `translate(${x} ${y})`)
    const drawn = this.board.drawn()
    if (drawn === this.#drawn && scale === this.#scale) return
    if (scale !== this.#scale) this.#forget()
    this.#drawn = drawn
    this.#scale = scale
    const dots = new Map(drawn.flatMap((object) => this.#dotsOf(object)))
    for (const [shapes, old] of this.#dots) if (!dots.has(shapes)) for (const dot of old) dot.remove()
    this.#dots = dots
  }

  #forget() {
    this.layer.replaceChildren()
    this.#dots.clear()
  }

  /** The shapes of an object with their dots: those that are drawn already, or new ones. */
  #dotsOf({ name, shapes }) {
    if (!shapes.some((shape) => this.#isSmall(shape))) return []
    const known = this.#dots.get(shapes)
    if (known !== undefined) return [[shapes, known]]
    const dots = shapes.flatMap((shape, place) => (this.#isSmall(shape) ? [this.#dot(name, shape, place)] : []))
    this.layer.append(...dots)
    return [[shapes, dots]]
  }

  #isSmall({ width, height }) {
    return Math.max(Math.abs(width), Math.abs(height)) * this.camera.scale < SPECK
  }

  #dot(name, shape, place) {
    const [cx, cy] = middleOf(boundsOf(shape)).map((one) => one * this.camera.scale)
    const own = { "data-object": keyOf(name), "data-letter": letterOf(place) }
    return svg("circle", { class: "speck", cx, cy, r: SPECK / 2, fill: shape.fill, ...own })
  }
}
