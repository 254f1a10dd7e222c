/**
 * The grips of thin lines: invisible wider outlines, which are easier to hit. Those of many lines are made when the
 * lines are on the screen, some in each frame.
 */

import { Frames } from "./frames.js"

// How many are made in a frame.
const AT_ONCE = 250
// Until then the lines themselves are on the screen.
const LATER_MILLISECONDS = 100

export class Grips {
  // The versions that have no grip yet.
  #waiting = new Set()
  #frames = new Frames(() => this.#make())
  #timer = null

  /**
   * A version was drawn anew. If it is thin it needs a grip.
   * @param {SVGElement} version
   * @param {boolean} isThin
   */
  note(version, isThin) {
    if (isThin) this.#waiting.add(version)
    else this.#waiting.delete(version)
  }

  /** Makes the grips of what was drawn, now if they are few. */
  draw() {
    if (this.#waiting.size <= AT_ONCE) this.#make()
    else this.#timer ??= setTimeout(() => this.#frames.ask(), LATER_MILLISECONDS)
  }

  #make() {
    for (const version of [...this.#waiting].slice(0, AT_ONCE)) {
      this.#waiting.delete(version)
      version.prepend(gripOf(version.querySelector(".body")))
    }
    if (this.#waiting.size > 0) this.#frames.ask()
    else this.#timer = null
  }
}

function gripOf(body) {
  const grip = body.cloneNode()
  grip.setAttribute("class", "grip")
  grip.removeAttribute("style")
  return grip
}
