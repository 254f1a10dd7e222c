/** What the others draw at the moment, until the page shows the object that it becomes. */

import { bodyOf } from "./bodies.js"
import { setAttribute, svg } from "./elements.js"
import { Glide } from "./glide.js"
import { countOf } from "./own_note.js"

// A sketch that has ended is shown so much longer, as its object may be on its way.
const LINGERS_MILLISECONDS = 600
const SIDES = ["x", "y", "width", "height"]

export class LiveSketches {
  // By site: the sketch, where it is shown if it is a shape, and until when if it has ended.
  #shown = new Map()

  /**
   * @param {import("./people.js").People} people
   * @param {import("./view.js").View} view
   * @param {SVGElement} layer
   */
  constructor(people, view, layer) {
    Object.assign(this, { people, layer, camera: view.camera, room: view.board.room })
    people.onChange(() => this.#follow())
  }

  /** Whether the next frame will differ. */
  get isChanging() {
    const now = performance.now()
    return [...this.#shown.values()].some(({ glide, until }) => until !== null || glide.isMoving(now))
  }

  draw() {
    const now = performance.now()
    for (const [site, shown] of this.#shown) if (!this.#isOnItsWay(site, shown, now)) this.#shown.delete(site)
    const { scale, x, y } = this.camera
    setAttribute(this.layer, "transform", `translate(${x} ${y}) scale(${scale})`)
    if (this.#shown.size > 0 || this.layer.firstChild !== null) {
      this.layer.replaceChildren(...[...this.#shown.values()].map((shown) => sketchOf(shown, now)))
    }
  }

  #isOnItsWay(site, { sketch, until }, now) {
    return countOf(this.room.seen, site) <= sketch.made && (until === null || now < until)
  }

  /** Takes what new notes say. */
  #follow() {
    const now = performance.now()
    const drawing = this.people.others.filter(({ sketch }) => sketch !== null)
    for (const { site, sketch } of drawing) this.#take(site, sketch, now)
    const sites = new Set(drawing.map(({ site }) => site))
    for (const [site, shown] of this.#shown) if (!sites.has(site)) shown.until ??= now + LINGERS_MILLISECONDS
  }

  #take(site, sketch, now) {
    const known = this.#shown.get(site)
    const place = SIDES.map((side) => sketch[side])
    const isSame = known?.sketch.made === sketch.made && known.sketch.kind === sketch.kind && sketch.kind !== "pen"
    const glide = isSame ? known.glide : new Glide(place)
    glide.go(place, now)
    this.#shown.set(site, { sketch, glide, until: null })
  }
}

function sketchOf({ sketch, glide }, now) {
  const place = Object.fromEntries(glide.at(now).map((number, side) => [SIDES[side], number]))
  return svg("g", { class: "live" }, bodyOf({ ...sketch, ...place }, "body"))
}
