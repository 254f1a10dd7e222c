/** Pointer input on the drawing: mouse, pen or fingers. */

import { BoxSelection, LineEndDrag, Move, Pan, Pinch, Resize } from "./drags.js"
import { leaveFocus } from "./elements.js"
import { withGroups } from "./groups.js"
import { Sketch, Stroke, TextPress } from "./sketches.js"

const [LEFT, MIDDLE] = [0, 1]
// One notch of a wheel is about 100 pixels, which zooms by about a fifth.
const ZOOM_PER_PIXEL = 0.002
const LINE_PIXELS = 16
// Two presses within this time and distance are a double click. The pressed elements are replaced in between, so the
// browser's own `dblclick` never fires. Where the browser counts the presses of a mouse, its count holds too: it has
// the time that the user has set, and the presses themselves, however late the page hears of them.
const DOUBLE_MILLISECONDS = 500
const TWICE = 2
const DOUBLE_PIXELS = 5

export class Gestures {
  #drag = null
  #fingers = new Map()
  #pressed = { time: -Infinity, place: [0, 0] }
  #isDouble = false
  // While the space bar is down, a drag moves the view.
  #isSpaceDown = false

  /** @param {import("./whiteboard.js").Page} page */
  constructor(page) {
    this.page = page
    const { element } = page.view.sheet
    element.addEventListener("pointerdown", (event) => this.#press(event))
    element.addEventListener("mousedown", (event) => this.#count(event))
    element.addEventListener("pointermove", (event) => this.#move(event))
    for (const name of ["pointerup", "pointercancel"]) {
      element.addEventListener(name, (event) => this.#lift(event, name === "pointerup"))
    }
    addEventListener("keydown", ({ key, target }) => {
      if (key === "Tab") element.classList.remove("pressed")
      if (key === " ") this.#space(!isInTextField(target))
    })
    addEventListener("keyup", ({ key }) => key === " " && this.#space(false))
    addEventListener("blur", () => this.#space(false))
    element.addEventListener("wheel", (event) => this.#wheel(event), { passive: false })
  }

  /** Whether the user has used the pointer since the tab key. */
  get isByPointer() {
    return this.page.view.sheet.element.classList.contains("pressed")
  }

  /** Whether a drag is in progress. */
  get isBusy() {
    return this.#drag !== null
  }

  /** Ends a drag. It has no effect if `isWhole` is false. Returns whether there was one. */
  end(isWhole) {
    const drag = this.#drag
    this.#drag = null
    drag?.end(isWhole)
    return drag !== null
  }

  #press(event) {
    if (event.pointerType === "touch") this.#fingers.set(event.pointerId, this.page.camera.inWindow(event))
    if (this.#fingers.size === 2) {
      this.end(false)
      this.#drag = new Pinch(this.page, this.#fingers)
    }
    if (this.#drag !== null || (event.button !== LEFT && event.button !== MIDDLE)) return
    this.page.nudges.end()
    // Until the tab key is pressed, the focus needs no mark.
    this.page.view.sheet.element.classList.add("pressed")
    // Commits an open text field first. Keys no longer apply to an object that had the focus.
    leaveFocus()
    this.page.view.now()
    this.#isDouble = this.#isPressedAgain(event)
    this.#drag = this.#dragOf(event)
    this.page.view.sheet.element.setPointerCapture(event.pointerId)
  }

  /** The browser's count of presses. It comes behind a press of the mouse, and before its release. */
  #count(event) {
    if (this.#drag === null) return
    // The pressed version already has the focus. By default the browser would focus the whole drawing.
    event.preventDefault()
    if (event.detail === TWICE) this.#isDouble = true
  }

  #dragOf(event) {
    const { page } = this
    const { tool } = page.tools
    if (event.button === MIDDLE || this.#isSpaceDown) return new Pan(page, event)
    if (tool === "pen") return new Stroke(page, event)
    const target = elementAt(event)
    const under = page.view.sheet.under(target)
    if (tool === "text") return new TextPress(page, under, event)
    if (tool !== "select") return new Sketch(page, tool, event)
    if (under === null) {
      page.view.sheet.element.focus({ preventScroll: true })
      return event.pointerType === "touch" ? new Pan(page, event) : new BoxSelection(page, event)
    }
    if (!target.classList.contains("handle")) return this.#moveOf(under, event)
    const HandleDrag = page.room.kind(under.name) === "line" ? LineEndDrag : Resize
    return new HandleDrag(page, under, event, target.dataset.end)
  }

  /** Selects what is pressed, with its group, and moves it. With Shift it is added, or taken out. */
  #moveOf(under, event) {
    const { page } = this
    const names = withGroups(page.board, [under.name])
    if (event.shiftKey) page.toggle(names)
    else if (!page.board.isSelected(under.name)) page.selectAll(names)
    if (!page.board.isSelected(under.name)) return null
    page.pick(under.name, under.version)
    return new Move(page, under, event)
  }

  #space(isDown) {
    this.#isSpaceDown = isDown
    this.page.view.sheet.element.classList.toggle("panning", isDown)
  }

  #move(event) {
    if (this.#fingers.has(event.pointerId)) this.#fingers.set(event.pointerId, this.page.camera.inWindow(event))
    this.#drag?.move(event)
  }

  #isPressedAgain({ timeStamp: time, clientX: x, clientY: y }) {
    const { time: before, place } = this.#pressed
    this.#pressed = { time, place: [x, y] }
    return time - before < DOUBLE_MILLISECONDS && Math.hypot(x - place[0], y - place[1]) < DOUBLE_PIXELS
  }

  /** The first finger that is lifted ends a pinch. */
  #lift(event, isWhole) {
    this.#fingers.delete(event.pointerId)
    this.end(isWhole)
    if (isWhole && this.#isDouble && event.button === LEFT) this.#write(event)
    this.#isDouble = false
  }

  /** The wheel moves the view, and zooms with Ctrl. Browsers report a touch-pad pinch in the same way. */
  #wheel(event) {
    event.preventDefault()
    const { camera, textField } = this.page
    textField.end()
    const unit = event.deltaMode === WheelEvent.DOM_DELTA_PIXEL ? 1 : LINE_PIXELS
    const [x, y] = [event.deltaX * unit, event.deltaY * unit]
    if (event.ctrlKey) camera.zoom(Math.exp(-y * ZOOM_PER_PIXEL), camera.inWindow(event))
    else if (event.shiftKey && x === 0) camera.pan(-y, 0)
    else camera.pan(-x, -y)
  }

  /** A double click on a shape opens its text field, and on empty paper that of a new text. */
  #write(event) {
    const [x, y] = this.#pressed.place
    if (Math.hypot(event.clientX - x, event.clientY - y) >= DOUBLE_PIXELS) return
    const { camera, textField, tools, view } = this.page
    view.now()
    const under = view.sheet.under(elementAt(event))
    if (tools.tool !== "select") return
    if (under === null) textField.openNew(camera.placeOf(event))
    else textField.open(under.name, under.version)
  }
}

/** Whether a key goes into a text field. */
export const isInTextField = (target) =>
  target.matches?.("input:not([type=color], [type=checkbox]), textarea") ?? false

const elementAt = ({ clientX, clientY }) => document.elementFromPoint(clientX, clientY)
