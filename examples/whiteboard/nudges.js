/** Moves by the arrow keys. Several key presses in a row are one step, sent after the last one. */

import { Hand } from "./hand.js"
import { resizeAttributes } from "./shapes.js"

const STEP = 10
// A move by keys is complete after this time without another key.
const REST_MILLISECONDS = 500

export const ARROWS = { ArrowLeft: [-1, 0], ArrowRight: [1, 0], ArrowUp: [0, -1], ArrowDown: [0, 1] }

export class Nudges {
  #nudge = null

  /** @param {import("./whiteboard.js").Page} page */
  constructor(page) {
    this.page = page
    const { sheet } = page.view
    sheet.element.addEventListener("focusout", () => sheet.isDrawing || this.end())
  }

  /** Moves versions by one step, or resizes them. */
  push(chosen, [x, y], isResize) {
    if (this.#nudge !== null && (!this.#nudge.hand.holds(chosen) || this.#nudge.isResize !== isResize)) this.end()
    this.#nudge ??= { hand: new Hand(this.page, chosen), isResize, sum: [0, 0], timer: null }
    const nudge = this.#nudge
    nudge.sum = [nudge.sum[0] + x * STEP, nudge.sum[1] + y * STEP]
    if (isResize) nudge.hand.show((shape) => resizeAttributes(shape, ...nudge.sum))
    else nudge.hand.move(...nudge.sum)
    clearTimeout(nudge.timer)
    nudge.timer = setTimeout(() => this.end(), REST_MILLISECONDS)
  }

  /** Puts the move in one step, unless it was cancelled. */
  end(isWhole = true) {
    if (this.#nudge === null) return
    const { hand, timer } = this.#nudge
    this.#nudge = null
    clearTimeout(timer)
    hand.end(isWhole)
  }
}
