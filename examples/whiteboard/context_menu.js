/** The menu of the right button, or of a finger that rests: what can be done with what is selected. */

import { button, part } from "./elements.js"
import { withGroups } from "./groups.js"
import { ordersOf } from "./stacking.js"

const EDGE = 8
// A finger that has not moved by so many pixels in this time rests.
const REST_MILLISECONDS = 600
const REST_PIXELS = 8

export class ContextMenu {
  isOpen = false
  // While a finger may come to rest: its first place and the timer; or null.
  #resting = null

  /** @param {import("./whiteboard.js").Page} page */
  constructor(page) {
    this.page = page
    const { element } = page.view.sheet
    element.addEventListener("contextmenu", (event) => {
      event.preventDefault()
      this.#open(event)
    })
    element.addEventListener("pointerdown", (event) => this.#press(event))
    element.addEventListener("pointermove", (event) => this.#move(event))
    for (const name of ["pointerup", "pointercancel"]) element.addEventListener(name, () => this.#endRest())
    // The browser would close a menu of its own kind when the finger is lifted.
    document.addEventListener("pointerdown", ({ target }) => part("menu").contains(target) || this.close(), true)
  }

  close() {
    if (this.isOpen) part("menu").hidePopover()
    this.isOpen = false
  }

  /** Only touch screens need this: browsers have an event of their own for the right button, and some for fingers. */
  #press(event) {
    const isSecond = this.#resting !== null
    this.#endRest()
    if (event.pointerType !== "touch" || isSecond || this.page.tools.tool !== "select") return
    const timer = setTimeout(() => this.#open(event), REST_MILLISECONDS)
    this.#resting = { timer, x: event.clientX, y: event.clientY }
  }

  #move({ clientX, clientY }) {
    if (this.#resting === null) return
    const { x, y } = this.#resting
    if (Math.hypot(clientX - x, clientY - y) > REST_PIXELS) this.#endRest()
  }

  #endRest() {
    clearTimeout(this.#resting?.timer)
    this.#resting = null
  }

  #open(event) {
    this.#endRest()
    this.close()
    const { board, gestures, nudges, view } = this.page
    nudges.end()
    // A finger that rests has begun a drag.
    gestures.end(false)
    // The press may have drawn its target anew.
    const under = view.sheet.under(document.elementFromPoint(event.clientX, event.clientY))
    if (under === null) this.page.selectAll([])
    else {
      if (!board.isSelected(under.name)) this.page.selectAll(withGroups(board, [under.name]))
      this.page.pick(under.name, under.version)
    }
    part("menu").replaceChildren(...this.#items())
    part("menu").showPopover()
    this.isOpen = true
    placeAt(event.clientX, event.clientY)
    part("menu").querySelector("button:not(:disabled)")?.focus()
  }

  #items() {
    const { board, changes, clipboard, grouping } = this.page
    const { chosen, selected, selection } = board
    const isOne = selected !== null && chosen.length === 1
    const orders = isOne ? ordersOf(board, selected) : null
    return [
      this.#item("Copy", chosen.length > 0, () => clipboard.copy()),
      this.#item("Paste", clipboard.isFull, () => clipboard.paste()),
      this.#item("Duplicate", chosen.length > 0, () => clipboard.duplicate()),
      this.#item("To front", isOne, () => changes.change({ z: orders.front })),
      this.#item("To back", isOne, () => changes.change({ z: orders.back })),
      grouping.isOneGroup ? this.#item("Ungroup", true, () => grouping.ungroup())
        : this.#item("Group", selection.size > 1, () => grouping.group()),
      this.#item("Delete", chosen.length > 0, () => changes.dropAll(board.chosen)),
    ]
  }

  #item(words, isEnabled, act) {
    const item = button(words, `menu-${words}`, () => {
      this.close()
      act()
    })
    item.disabled = !isEnabled
    return item
  }
}

/** Places the open menu at a point of the window, inside it. */
function placeAt(x, y) {
  const { width, height } = part("menu").getBoundingClientRect()
  const [left, top] = [Math.min(x, innerWidth - width - EDGE), Math.min(y, innerHeight - height - EDGE)]
  Object.assign(part("menu").style, { left: `${Math.max(EDGE, left)}px`, top: `${Math.max(EDGE, top)}px` })
}
