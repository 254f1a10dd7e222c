/** Buttons at the edges of the window for objects outside it. A click shows the nearest one. */

import { between, boundsOf, meet, middleOf } from "./boxes.js"
import { html } from "./elements.js"
import { countOf } from "./words.js"

const SIDES = {
  left: { arrow: "←", words: "to the left" }, right: { arrow: "→", words: "to the right" },
  above: { arrow: "↑", words: "above" }, below: { arrow: "↓", words: "below" },
}
const MARGIN = 34

export class Edges {
  #buttons = {}
  #nearest = {}

  /**
   * @param {{ board: import("./board.js").Board, camera: import("./camera.js").Camera }} parts
   * @param {Element} element
   */
  constructor({ board, camera }, element) {
    Object.assign(this, { board, camera })
    for (const side of Object.keys(SIDES)) {
      const onclick = () => this.camera.reach(this.#nearest[side])
      this.#buttons[side] = html("button", { type: "button", className: `edge ${side}`, hidden: true, onclick })
      element.append(this.#buttons[side])
    }
  }

  draw() {
    const outside = { left: nothing(), right: nothing(), above: nothing(), below: nothing() }
    for (const object of this.board.drawn()) this.#sort(object, outside)
    for (const side of Object.keys(SIDES)) this.#tell(side, outside[side])
  }

  /** Counts an object at each side where some version is outside the window, and notes the nearest version. */
  #sort({ name, shapes }, outside) {
    for (const shape of shapes) {
      const box = this.camera.boxOf(boundsOf(shape))
      if (meet(box, this.camera.window)) continue
      const { side, distance } = this.#sideOf(box)
      const found = outside[side]
      if (found.last !== name) found.count += 1
      found.last = name
      if (distance < found.distance) Object.assign(found, { distance, shape, middle: middleOf(box) })
    }
  }

  /** The side on which a box is farthest outside. */
  #sideOf({ x, y, width, height }) {
    const [left, right, above, below] = [-x - width, x - this.camera.width, -y - height, y - this.camera.height]
    const distance = Math.max(left, right, above, below)
    const side = distance === left ? "left" : distance === right ? "right" : distance === above ? "above" : "below"
    return { side, distance }
  }

  #tell(side, { count, shape, middle }) {
    const element = this.#buttons[side]
    element.hidden = count === 0
    if (count === 0) return
    this.#nearest[side] = boundsOf(shape)
    const { arrow, words } = SIDES[side]
    element.textContent = `${arrow} ${count}`
    element.title = `${countOf(count, "object")} ${words}: show the nearest`
    element.setAttribute("aria-label", element.title)
    const isUpright = side === "left" || side === "right"
    const [x, y] = middle
    element.style.left = isUpright ? "" : `${between(MARGIN, x, this.camera.width - MARGIN)}px`
    element.style.top = isUpright ? `${between(MARGIN, y, this.camera.height - MARGIN)}px` : ""
  }
}

/** A side at which no object was found yet. */
const nothing = () => ({ count: 0, last: null, distance: Infinity, shape: null, middle: null })
