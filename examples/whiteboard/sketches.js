/** What the pointer draws between press and release. Each object is made at the end. */

import { bodyOf } from "./bodies.js"
import { boundsOf } from "./boxes.js"
import { CLICK_PIXELS, shapeUnder } from "./drags.js"
import { boxOf, simplify } from "./pen.js"
import { LEAST, NEW_SHAPES, attributesOf, regularSize } from "./shapes.js"
import { FIRST_EDGES, Snapping } from "./snapping.js"

// A stroke is told to the others in a simpler form, which gets simpler still when it has so many points.
const TOLD_POINTS = 100
const TOLD_DISTANCE = 1

/**
 * Draws a new shape from one corner to the opposite one. With Shift it is regular. A click draws one of a usual size,
 * around the pointer. The corners of a shape snap to others, and the ends of a line stick, but not with Alt or Shift.
 */
export class Sketch {
  #size = [0, 0]
  // The objects to which the ends of a line stick, or null.
  #from = null
  #to = null
  #snapping
  #press

  constructor(page, tool, event) {
    const { kind, usualSize } = NEW_SHAPES[tool]
    const { clientX, clientY, altKey } = event
    Object.assign(this, { page, kind, usualSize, style: page.style.shapeOf(tool), pressed: page.camera.placeOf(event) })
    this.#press = { clientX, clientY, altKey }
    this.#snapping = this.kind === "line" ? null : new Snapping(page, [])
    this.start = this.#cornerAt(event)
  }

  move(event) {
    const size = this.#cornerAt(event).map((place, side) => place - this.start[side])
    this.#size = event.shiftKey ? regularSize(this.kind, size) : size
    if (this.kind === "line") this.#stick(event)
    const sketched = this.#sketched()
    show(this.page, sketched, bodyOf(sketched, "body sketch"))
  }

  end(isWhole) {
    const { changes } = this.page
    show(this.page, null, null)
    this.#snapping?.end()
    if (isWhole && this.#isClick) changes.draw(this.kind, attributesOf(this.#usual()))
    else if (isWhole) this.#draw()
    this.page.people.write()
  }

  #draw() {
    const { changes } = this.page
    changes.step(() => {
      changes.draw(this.kind, attributesOf(this.#sketched()))
      for (const name of this.#ends) if (name !== null) changes.mark(name)
    })
  }

  /** Finds the objects to which the ends of the line stick. */
  #stick(event) {
    const end = this.start.map((place, side) => place + this.#size[side])
    const press = { ...this.#press, shiftKey: event.shiftKey }
    this.#from = shapeUnder(this.page, press, this.style, end)
    this.#to = shapeUnder(this.page, event, this.style, this.start)
  }

  /** The objects to which the ends stick. Both ends stick to no single one. */
  get #ends() {
    return String(this.#from) === String(this.#to) ? [null, null] : [this.#from, this.#to]
  }

  /** What is drawn now. */
  #sketched() {
    const { connections } = this.page.board
    const [from, to] = this.#ends.map((name) => (name === null ? "" : connections.textOf(name)))
    return connections.ended({ ...this.#shape(this.start, this.#size), from, to })
  }

  /** Where the pointer is, or the lines near it to which a corner snaps. */
  #cornerAt(event) {
    const [x, y] = this.page.camera.placeOf(event)
    this.#snapping?.end()
    if (this.#snapping === null || event.altKey || event.shiftKey) return [x, y]
    const [byX, byY] = this.#snapping.snap({ x, y, width: 0, height: 0 }, FIRST_EDGES)
    return [x + byX, y + byY]
  }

  get #isClick() {
    const length = Math.max(...this.#size.map(Math.abs))
    return length < LEAST || length * this.page.camera.scale < CLICK_PIXELS
  }

  #usual() {
    return this.#shape(this.pressed.map((place, side) => place - this.usualSize[side] / 2), this.usualSize)
  }

  #shape([x, y], [width, height]) {
    const shape = { ...this.style, x, y, width, height }
    return this.kind === "line" ? shape : { ...shape, ...boundsOf(shape) }
  }
}

/** Begins a text on empty paper, or opens that of a shape. */
export class TextPress {
  constructor(page, under, event) {
    Object.assign(this, { page, under, place: page.camera.placeOf(event) })
  }

  move() {}

  end(isWhole) {
    const { textField, tools } = this.page
    if (!isWhole) return
    if (this.under === null) return textField.openNew(this.place)
    tools.use("select")
    textField.open(this.under.name, this.under.version)
  }
}

/** Draws a stroke of the pen. */
export class Stroke {
  constructor(page, event) {
    this.page = page
    this.began = performance.now()
    this.points = [page.camera.placeOf(event)]
    this.told = [...this.points]
  }

  move(event) {
    const { camera, style } = this.page
    const events = event.getCoalescedEvents?.() ?? []
    const more = (events.length > 0 ? events : [event]).map((one) => camera.placeOf(one))
    this.points.push(...more)
    this.told.push(...more)
    if (this.told.length > TOLD_POINTS) this.told = simplify(this.told, TOLD_DISTANCE)
    const next = style.shapeOf("pen")
    show(this.page, { ...next, points: this.told }, bodyOf(unfinishedStroke(this.points, next), "body sketch"))
  }

  end(isWhole) {
    show(this.page, null, null)
    if (isWhole) this.page.handwriting.draw(this.points, this.began)
    this.page.people.write()
  }
}

/** Shows what is drawn, here and to the others; null ends it. */
function show({ board, people, view }, sketch, body) {
  board.sketch = sketch
  view.sheet.sketch(body)
  if (sketch !== null) people.write()
}

/** The shape of an unfinished stroke. */
function unfinishedStroke(points, style) {
  const box = boxOf(points)
  return { ...style, ...box, strokes: [points.map(([x, y]) => [x - box.x, y - box.y])] }
}
