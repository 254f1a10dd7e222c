/** The text field on a shape, or on empty paper. It follows the shape, which others may move while it is open. */

import { boundsOf, middleOf } from "./boxes.js"
import { html, part } from "./elements.js"
import { TEXT_SIZES } from "./lettering.js"
import { shapeOf } from "./shapes.js"
import { textArea } from "./text_area.js"
import { NewText, TextEdit } from "./text_edit.js"
import { truncate } from "./texts.js"
import { WRITING } from "./words.js"

const LEAST_WIDTH = 180

export class TextField {
  // The open field, the element that has it, and what it edits; or null.
  #open = null

  /** @param {import("./whiteboard.js").Page} page */
  constructor(page) {
    this.page = page
  }

  /** Opens the field on a version. */
  open(name, version) {
    this.end()
    this.page.select(name, version)
    this.#show(new TextEdit(this.page, name, version), "Text on the shape")
  }

  /** Opens the field on empty paper, around a place of the drawing. */
  openNew(place) {
    this.end()
    this.page.selectAll([])
    this.#show(new NewText(this.page, place), "New text")
  }

  /** Draws the open field at its shape, or where it was if the shape is deleted. */
  draw() {
    if (this.#open === null) return
    const { edit } = this.#open
    const { version } = edit
    if (edit.name === null) this.#place({ kind: "text", ...edit.place, width: 0, height: 0, size: edit.size })
    else if (version !== null) this.#place(shapeOf(this.page.room.kind(edit.name), version.attributes))
  }

  #show(edit, label) {
    const { field, left } = textArea({
      text: edit.before, label, end: () => this.end(), write: () => this.draw(),
    })
    const element = html("div", { id: "writing" }, field, left)
    this.#open = { field, element, edit }
    part("window").append(element)
    this.page.tools.tell(WRITING)
    this.draw()
    field.focus()
    field.select()
  }

  /** Commits the open text field, if there is one. */
  end() {
    if (this.#open === null) return
    const { board, tools, view } = this.page
    const { field, element, edit } = this.#open
    this.#open = null
    const text = truncate(field.value)
    element.remove()
    tools.tellHint()
    edit.end(text)
    const name = edit.name ?? board.selected
    view.change(name === null ? [] : [name])
    view.now()
    if (name !== null) view.sheet.find(name, board.picked(name))?.focus({ preventScroll: true })
  }

  /** A text alone is written where it stands, in its size. On other shapes the field is in the middle. */
  #place(shape) {
    const { camera } = this.page
    const { element, field } = this.#open
    const box = camera.boxOf(boundsOf(shape))
    const isAlone = shape.kind === "text"
    const width = Math.max(LEAST_WIDTH, Math.min(box.width, camera.width))
    const [x, y] = isAlone ? [box.x, box.y] : middleOf(box)
    element.classList.toggle("alone", isAlone)
    Object.assign(element.style, { left: `${isAlone ? x : x - width / 2}px`, top: `${y}px`, width: `${width}px` })
    if (isAlone) field.style.setProperty("--letters", `${TEXT_SIZES[shape.size] * camera.scale}px`)
  }
}
