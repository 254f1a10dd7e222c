/** Keyboard input. */

import { leaveFocus } from "./elements.js"
import { isInTextField } from "./gestures.js"
import { ARROWS } from "./nudges.js"
import { NEW_SHAPES, attributesOf } from "./shapes.js"

const DELETING = ["Delete", "Backspace"]
const PAN = 60
const ZOOM = 1.25

export class Keys {
  /** @param {import("./whiteboard.js").Page} page */
  constructor(page) {
    this.page = page
    document.addEventListener("keydown", (event) => {
      if (isInTextField(event.target)) return
      const isDone = event.ctrlKey || event.metaKey ? this.#command(event) : this.#key(event)
      if (isDone) event.preventDefault()
    })
  }

  /** Handles a key with Ctrl. Returns whether it is a command. */
  #command({ key, shiftKey }) {
    if (this.page.gestures.isBusy) return false
    const word = key.toLowerCase()
    // A text of the page that is marked is copied as text.
    if ("cx".includes(word) && getSelection().toString() !== "") return false
    const act = this.#commandOf(word, shiftKey)
    act?.()
    return act !== undefined
  }

  #commandOf(word, isShift) {
    const { board, changes, clipboard, grouping } = this.page
    const commands = {
      z: () => (isShift ? changes.redo() : changes.undo()), y: () => changes.redo(),
      c: () => clipboard.copy(), x: () => clipboard.cut(), d: () => clipboard.duplicate(),
      a: () => this.page.selectAll(board.objects()), g: () => (isShift ? grouping.ungroup() : grouping.group()),
    }
    return Object.hasOwn(commands, word) ? commands[word] : undefined
  }

  #key(event) {
    const { page } = this
    // The browser closes an open menu of files.
    if (page.files.isMenuOpen) return false
    if (page.menu.isOpen) return this.#inMenu(event.key)
    if (event.key === "Escape") return this.#escape()
    const { element } = page.view.sheet
    if (page.gestures.isBusy) return false
    if (this.#zoom(event) || (!event.altKey && page.tools.useKey(event.key))) return true
    const isOnDrawing = event.target === document.body || element.contains(event.target)
    return this.#change(event) || this.#write(event) || (isOnDrawing && (this.#open(event) || this.#pan(event)))
  }

  /** While the menu of what is selected is open, Escape closes it, and other keys are the menu's. */
  #inMenu(key) {
    if (key !== "Escape") return false
    this.page.menu.close()
    this.page.view.sheet.element.focus({ preventScroll: true })
    return true
  }

  /** Handles the keys that zoom. */
  #zoom({ key }) {
    const { camera, view } = this.page
    if (key === "+" || key === "=") camera.zoom(ZOOM)
    else if (key === "-") camera.zoom(1 / ZOOM)
    else if (key === "1") camera.zoom(1 / camera.scale)
    else if (key === "0") view.fitAll()
    else return false
    return true
  }

  /** Arrow keys without a selection move the view. */
  #pan({ key }) {
    if (!(key in ARROWS)) return false
    this.page.camera.pan(...ARROWS[key].map((way) => -way * PAN))
    return true
  }

  /** Handles the keys that change what is selected, wherever the focus is. */
  #change({ key, target, shiftKey, repeat }) {
    if (!DELETING.includes(key) && !(key in ARROWS)) return false
    const chosen = this.#chosen(target)
    if (chosen.length === 0) return false
    if (key in ARROWS) this.page.nudges.push(chosen, ARROWS[key], shiftKey)
    else if (!repeat) this.#delete(chosen)
    return true
  }

  /** F2 writes on what is selected, wherever the focus is. */
  #write({ key, target }) {
    const [chosen] = key === "F2" ? this.#chosen(target) : []
    if (chosen !== undefined) this.page.textField.open(chosen.name, chosen.version)
    return chosen !== undefined
  }

  /** Handles the keys that create a shape, select a version, or write on the one that is selected. */
  #open({ key, target }) {
    const { board, textField, tools, view } = this.page
    if (key !== "Enter" && key !== " ") return false
    if (key === "Enter" && target === view.sheet.element && this.#create(tools.tool)) return true
    const before = board.chosen
    const [chosen, ...others] = this.#chosen(target)
    if (chosen === undefined || others.length > 0) return chosen !== undefined
    const isChosen = before.length === 1 && before[0].version === chosen.version
    if (key === "Enter" && isChosen) textField.open(chosen.name, chosen.version)
    else this.page.select(chosen.name, chosen.version)
    return true
  }

  /** The version with the focus, if its object is not selected, otherwise those that are. */
  #chosen(target) {
    const { board, view } = this.page
    const under = view.sheet.under(target)
    const isOther = under !== null && (!board.isSelected(under.name) || board.picked(under.name) !== under.version)
    if (!isOther) return board.chosen
    this.page.select(under.name, under.version)
    return [under]
  }

  /** Deletes versions and discards an unfinished move by keys. The focus moves to no other version. */
  #delete(chosen) {
    const { changes, nudges } = this.page
    nudges.end(false)
    changes.dropAll(chosen)
  }

  /** Creates a shape in the centre of the window, shifted so that new shapes do not cover each other. */
  #create(tool) {
    const { board, camera, changes, style, textField } = this.page
    if (tool === "text") textField.openNew(camera.middle)
    if (!Object.hasOwn(NEW_SHAPES, tool)) return tool === "text"
    const { kind, usualSize: [width, height] } = NEW_SHAPES[tool]
    const shift = (board.objects().length % 10) * 24
    const [x, y] = camera.middle.map((place) => Math.round(place) + shift - 120)
    changes.draw(kind, attributesOf({ ...style.shapeOf(tool), x, y, width, height }))
    return true
  }

  #escape() {
    const { gestures, nudges, tools } = this.page
    nudges.end(false)
    if (gestures.end(false)) return true
    if (tools.tool !== "select") tools.use("select")
    else this.page.selectAll([])
    // Otherwise keys would still apply to the object that was pressed.
    if (gestures.isByPointer) leaveFocus()
    return true
  }
}
