/** What the pointer does to the view and to objects, between press and release. Each drag is one step, at its end. */

import { boundsOf, boundsOfAll, isInside, sidesOf } from "./boxes.js"
import { isHeld } from "./connections.js"
import { svg } from "./elements.js"
import { withGroups } from "./groups.js"
import { Hand } from "./hand.js"
import { lineEndAttributes, resizeAttributes } from "./shapes.js"
import { Snapping, edgesAt } from "./snapping.js"

/** A movement of fewer pixels counts as a click. */
export const CLICK_PIXELS = 2

/** Moves the view. A click clears the selection. */
export class Pan {
  #moved = 0

  constructor(page, event) {
    this.page = page
    this.last = page.camera.inWindow(event)
  }

  move(event) {
    const [x, y] = this.page.camera.inWindow(event)
    this.#moved = Math.max(this.#moved, Math.hypot(x - this.last[0], y - this.last[1]))
    if (this.#moved < CLICK_PIXELS) return
    this.page.camera.pan(x - this.last[0], y - this.last[1])
    this.last = [x, y]
  }

  end(isWhole) {
    if (isWhole && this.#moved < CLICK_PIXELS) this.page.select(null)
  }
}

/** Two fingers move the view and zoom. */
export class Pinch {
  #places

  /**
   * @param {Map<number, [number, number]>} places the fingers' positions in the window, kept up to date by the caller
   */
  constructor(page, places) {
    this.camera = page.camera
    this.#places = places
    this.last = this.#now()
  }

  move() {
    const { x, y, apart } = this.#now()
    this.camera.pan(x - this.last.x, y - this.last.y)
    this.camera.zoom(apart / this.last.apart, [x, y])
    this.last = { x, y, apart }
  }

  end() {}

  #now() {
    const [[x, y], [otherX, otherY]] = [...this.#places.values()]
    return { x: (x + otherX) / 2, y: (y + otherY) / 2, apart: Math.max(1, Math.hypot(x - otherX, y - otherY)) }
  }
}

/** Selects what a box encloses, with its groups. With Shift it adds to what is selected. A click selects nothing. */
export class BoxSelection {
  #box = null

  constructor(page, event) {
    Object.assign(this, { page, isMore: event.shiftKey, start: page.camera.placeOf(event) })
  }

  move(event) {
    const { camera, view } = this.page
    const [[x, y], [endX, endY]] = [this.start, camera.placeOf(event)]
    const box = boundsOf({ x, y, width: endX - x, height: endY - y })
    if (this.#box === null && Math.max(box.width, box.height) * camera.scale < CLICK_PIXELS) return
    this.#box = box
    view.sheet.sketch(svg("rect", { class: "sketch selecting", ...box }))
  }

  end(isWhole) {
    const { board, view } = this.page
    view.sheet.sketch(null)
    if (!isWhole) return
    const names = this.#box === null ? [] : withGroups(board, this.#enclosed())
    this.page.selectAll(this.isMore ? [...board.selection.names, ...names] : names)
  }

  /** The objects of which the picked version, or any if none is picked, is in the box. */
  #enclosed() {
    const { board } = this.page
    const isEnclosed = ({ name, shapes }) => {
      const picked = board.shown(name).indexOf(board.picked(name))
      return (picked < 0 ? shapes : [shapes[picked]]).some((shape) => isInside(boundsOf(shape), this.#box))
    }
    return board.drawn().filter(isEnclosed).map(({ name }) => name)
  }
}

/** Moves or resizes the picked versions of the selected objects. */
class VersionDrag {
  #isMoved = false

  constructor(page, { name, version }, event) {
    page.view.now()
    page.view.sheet.find(name, version)?.focus({ preventScroll: true })
    Object.assign(this, { page, name, isMore: event.shiftKey, start: page.camera.placeOf(event) })
    this.hand = new Hand(page, page.board.chosen)
  }

  move(event) {
    const { camera } = this.page
    const [x, y] = camera.placeOf(event).map((place, side) => place - this.start[side])
    this.#isMoved ||= Math.hypot(x, y) * camera.scale >= CLICK_PIXELS
    if (this.#isMoved) this.show(x, y, event)
  }

  /** A click on one of several selected objects selects that one alone, with its group. */
  end(isWhole) {
    const { board } = this.page
    this.hand.end(isWhole && this.#isMoved)
    const isClick = isWhole && !this.#isMoved && !this.isMore
    if (isClick && board.selection.size > 1) this.page.selectAll(withGroups(board, [this.name]))
  }
}

/** A drag of versions that snap to others. With Alt they do not. */
class SnappingDrag extends VersionDrag {
  #snapping = null

  constructor(page, under, event) {
    super(page, under, event)
    this.box = boundsOfAll(this.hand.items.map(({ shape }) => shape))
  }

  /** How far these lines of a box have to move. */
  snapped(box, shares, isFree) {
    this.#snapping ??= new Snapping(this.page, this.hand.items.map(({ name }) => name))
    if (!isFree) return this.#snapping.snap(box, shares)
    this.#snapping.end()
    return [0, 0]
  }

  end(isWhole) {
    this.#snapping?.end()
    super.end(isWhole)
  }
}

export class Move extends SnappingDrag {
  show(x, y, { altKey }) {
    const { box } = this
    const [byX, byY] = this.snapped({ ...box, x: box.x + x, y: box.y + y }, undefined, altKey)
    this.hand.move(x + byX, y + byY)
  }
}

/** Drags a corner of a shape. With Shift the size is regular, and does not snap. */
export class Resize extends SnappingDrag {
  constructor(page, under, event, corner) {
    super(page, under, event)
    this.corner = corner
  }

  show(x, y, { altKey, shiftKey }) {
    const { box, corner } = this
    const [isLeft, isTop] = sidesOf(corner)
    const width = box.width + (isLeft ? -x : x)
    const height = box.height + (isTop ? -y : y)
    const dragged = { x: isLeft ? box.x + x : box.x, y: isTop ? box.y + y : box.y, width, height }
    const [byX, byY] = this.snapped(dragged, edgesAt(corner), altKey || shiftKey)
    this.hand.show((shape) => resizeAttributes(shape, x + byX, y + byY, shiftKey, corner))
  }
}

/** Drags an end of a line, which sticks to a shape that it is on. With Alt or Shift it does not. */
export class LineEndDrag extends VersionDrag {
  #shape = null

  constructor(page, under, event, end) {
    super(page, under, event)
    this.side = end
    this.key = end === "start" ? "from" : "to"
  }

  show(x, y, event) {
    const { board } = this.page
    const [{ shape: dragged }] = this.hand.items
    this.#shape = shapeUnder(this.page, event, dragged, otherEnd(dragged, this.side))
    const text = this.#shape === null ? "" : board.connections.textOf(this.#shape)
    this.hand.show((line) => {
      const attributes = lineEndAttributes(line, this.side, [x, y], event.shiftKey)
      return text === line[this.key] ? attributes : { ...attributes, [this.key]: text }
    })
  }

  end(isWhole) {
    this.page.changes.step(() => {
      super.end(isWhole)
      if (isWhole && this.#shape !== null) this.page.changes.mark(this.#shape)
    })
  }
}

/** Where the end of a line is that is not dragged. */
const otherEnd = ({ x, y, width, height }, side) => (side === "start" ? [x + width, y + height] : [x, y])

/**
 * The object at the pointer to which an end of a line sticks, or null.
 * @param {any} line with its arrow
 * @param {[number, number]} other where its other end is
 */
export function shapeUnder({ board, view }, { clientX, clientY, altKey, shiftKey }, line, other) {
  if (altKey || shiftKey) return null
  const found = document.elementsFromPoint(clientX, clientY).map((element) => view.sheet.under(element))
  const isHolding = (under) => {
    const place = under === null ? -1 : board.shown(under.name).indexOf(board.picked(under.name))
    return place >= 0 && isHeld(board.shapes(under.name)[place], line, other)
  }
  return found.find(isHolding)?.name ?? null
}
