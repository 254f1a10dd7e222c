/**
 * Copies of objects. They go to the system's clipboard as the text of a drawing, so they reach other browsers and other
 * addresses. All windows of a browser on this whiteboard share one copy too, for the button that pastes.
 */

import { boundsOfAll, middleOf } from "./boxes.js"
import { anew, formOf } from "./copies.js"
import { isDrawingText, objectsIn, textOf } from "./drawing_file.js"
import { shapeOf } from "./shapes.js"

const KEY = "whiteboard copy"
const SHIFT = 20

export class Clipboard {
  #copy = null
  #pastes = 0

  /** @param {import("./whiteboard.js").Page} page */
  constructor(page) {
    this.page = page
    addEventListener("storage", ({ key }) => key === KEY && page.view.change([]))
  }

  /** Whether there is something to paste. */
  get isFull() {
    return this.#read() !== null
  }

  /** Copies the picked versions of the selected objects. Returns whether there are any. */
  copy() {
    const forms = this.#chosenForms()
    if (forms.length > 0) this.keep(forms)
    return forms.length > 0
  }

  /** Copies what is selected, and deletes it. */
  cut() {
    const { board, changes } = this.page
    if (this.copy()) changes.dropAll(board.chosen)
  }

  /** Makes these objects the copy. @param {import("./copies.js").Form[]} forms */
  keep(forms) {
    this.#copy = textOf(forms.map((form) => [form]))
    this.#pastes = 0
    try {
      localStorage.setItem(KEY, this.#copy)
    } catch {
      // The browser stores nothing, so only this window has the copy.
      this.#forget()
    }
    giveToSystem(this.#copy)
    this.page.view.change([])
  }

  /** Creates objects from the copy: next to the last ones, or in the centre if that place is not visible. */
  paste() {
    const copy = this.#read()
    if (copy !== null) this.pasteForms(formsIn(copy))
  }

  /** Creates objects from forms that were copied. */
  pasteForms(forms) {
    this.#pastes += 1
    this.#create(forms, this.#pastes * SHIFT)
  }

  /** Creates objects like those that are selected, next to them. */
  duplicate() {
    this.#create(this.#chosenForms(), SHIFT)
  }

  #chosenForms() {
    const { board } = this.page
    return board.chosen.map(({ name, version }) => formOf(board, name, version))
  }

  #create(forms, shift) {
    if (forms.length === 0) return
    const shapes = forms.map(({ kind, attributes }) => shapeOf(kind, attributes))
    this.page.changes.drawAll(anew(forms, this.#stepOf(boundsOfAll(shapes), shift)))
  }

  /** How far copies are from what is in this box. */
  #stepOf(box, shift) {
    const { camera } = this.page
    if (camera.shows({ ...box, x: box.x + shift, y: box.y + shift })) return [shift, shift]
    const [[x, y], [middleX, middleY]] = [camera.middle, middleOf(box)]
    return [x - middleX, y - middleY]
  }

  /** Forgets the copy of another window, which would otherwise be pasted in place of this one. */
  #forget() {
    try {
      localStorage.removeItem(KEY)
    } catch {
      // There is none.
    }
  }

  /** The latest copy of any window, or null. */
  #read() {
    let text = this.#copy
    try {
      text = localStorage.getItem(KEY) ?? text
    } catch {
      // Only this window's copy is available.
    }
    // An earlier page stored another form.
    return text !== null && isDrawingText(text) ? text : null
  }
}

/** The first version of each object in the text of a drawing. @throws {import("./drawing_file.js").NoDrawing} */
export const formsIn = (text) => objectsIn(text).map(([form]) => form)

/** Gives a text to the system's clipboard. A page without TLS can do that only in a `copy` event. */
function giveToSystem(text) {
  const give = (event) => {
    event.clipboardData.setData("text/plain", text)
    event.preventDefault()
  }
  document.addEventListener("copy", give)
  document.execCommand("copy")
  document.removeEventListener("copy", give)
}
