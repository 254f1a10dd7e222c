/**
 * What the others are dragging, where they have it now. The shape itself stays, pale, until the change of the drag is
 * shown. A drag that has ended is shown a little longer, as its change may be on its way.
 */

import { bodyOf, textOf } from "./bodies.js"
import { setAttribute, svg } from "./elements.js"
import { Glide } from "./glide.js"
import { countOf } from "./own_note.js"

const LINGERS_MILLISECONDS = 600
const SIDES = ["x", "y", "width", "height"]
const listOf = (box) => SIDES.map((side) => box[side])
const boxOf = (list) => Object.fromEntries(SIDES.map((side, place) => [side, list[place]]))

export class Ghosts {
  // By site: the drag of a person, and where it is shown.
  #drags = new Map()
  // The elements of the shapes that are pale now.
  #pale = []

  /**
   * @param {import("./people.js").People} people
   * @param {import("./view.js").View} view
   * @param {SVGElement} layer
   */
  constructor(people, view, layer) {
    Object.assign(this, { people, view, layer, board: view.board })
    people.onChange(() => this.#follow())
  }

  /** The box in which a person's drag is shown now, or null. */
  boxOf({ site }) {
    const drag = this.#drags.get(site)
    return drag !== undefined && this.#isShown(site, drag) ? boxOf(drag.glide.at(performance.now())) : null
  }

  draw() {
    const now = performance.now()
    const { scale, x, y } = this.view.camera
    this.#end(now)
    const shown = [...this.#drags].filter(([site, drag]) => this.#isShown(site, drag)).map(([, drag]) => drag)
    setAttribute(this.layer, "transform", `translate(${x} ${y}) scale(${scale})`)
    this.layer.replaceChildren(...shown.map((drag) => this.#ghostOf(drag, now)))
    this.#makePale(shown)
  }

  /** Whether the next frame will differ. */
  get isChanging() {
    const now = performance.now()
    return [...this.#drags.values()].some(({ glide, until }) => until !== null || glide.isMoving(now))
  }

  /** Takes what new notes say of drags. */
  #follow() {
    const now = performance.now()
    const dragging = this.people.others.filter(({ drag }) => drag !== null)
    for (const person of dragging) this.#take(person, now)
    const sites = new Set(dragging.map(({ site }) => site))
    for (const [site, drag] of this.#drags) if (!sites.has(site)) drag.until ??= now + LINGERS_MILLISECONDS
  }

  #take({ site, colour, drag: { object, place, box, made } }, now) {
    const known = this.#drags.get(site)
    const isKnown = known !== undefined && String(known.object) === String(object) && known.made === made
    const glide = isKnown ? known.glide : new Glide(listOf(this.board.shapes(object)[place] ?? box))
    glide.go(listOf(box), now)
    this.#drags.set(site, { object, place, made, colour, glide, until: null })
  }

  /** Forgets the drags that have ended, unless a hold of this page keeps their changes back. */
  #end(now) {
    if (this.board.room.hasNews) return
    for (const [site, { until }] of this.#drags) if (until !== null && now >= until) this.#drags.delete(site)
  }

  /** Whether the object is here, and the change of the drag is not shown yet. */
  #isShown(site, { object, made }) {
    return this.board.shapes(object).length > 0 && countOf(this.board.room.seen, site) <= made
  }

  #ghostOf({ object, place, colour, glide }, now) {
    const shapes = this.board.shapes(object)
    const shape = { ...(shapes[place] ?? shapes[0]), ...boxOf(glide.at(now)) }
    const ghost = svg("g", { class: "ghost", style: `--colour: ${colour}` }, bodyOf(shape))
    if (shape.text !== "") ghost.append(textOf(shape))
    return ghost
  }

  #makePale(drags) {
    for (const element of this.#pale) element.classList.remove("taken-along")
    this.#pale = drags.map(({ object, place }) => this.view.sheet.find(object, this.board.shown(object)[place]))
      .filter((element) => element !== null)
    for (const element of this.#pale) element.classList.add("taken-along")
  }
}
