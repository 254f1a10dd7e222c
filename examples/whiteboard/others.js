/** What the page shows of the others on the drawing: pointers, outlines of what they hold, what they drag and draw. */

import { part } from "./elements.js"
import { Frames } from "./frames.js"
import { Ghosts } from "./ghosts.js"
import { Holds } from "./holds.js"
import { LiveSketches } from "./live_sketches.js"
import { Pointers } from "./pointers.js"

export class Others {
  #frames = new Frames(() => this.#draw())

  /**
   * @param {import("./people.js").People} people
   * @param {import("./view.js").View} view
   */
  constructor(people, view) {
    Object.assign(this, { people, sheet: view.sheet })
    this.pointers = new Pointers(people, view.camera, part("others"))
    this.ghosts = new Ghosts(people, view, part("ghosts"))
    this.sketches = new LiveSketches(people, view, part("live"))
    this.holds = new Holds(people, view, this.ghosts, part("others"))
    people.onChange(() => this.#frames.ask())
    view.sheet.element.addEventListener("focusin", ({ target }) => this.#focus(target))
  }

  /** The drawing has changed, or how it is looked at: the note of this page may say so. */
  draw() {
    this.people.write()
    this.#draw()
  }

  /** By keys one takes what has the focus. */
  #focus(target) {
    const focused = this.sheet.isDrawing ? null : this.sheet.under(target)
    if (focused !== null) this.holds.tell(focused.name)
  }

  /** Draws again in the next frame while something moves. */
  #draw() {
    const parts = [this.ghosts, this.sketches, this.holds, this.pointers]
    for (const one of parts) one.draw()
    if (parts.some(({ isChanging }) => isChanging)) this.#frames.ask()
  }
}
