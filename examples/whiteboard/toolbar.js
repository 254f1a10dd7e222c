/** The tools above the drawing, and the zoom buttons. */

import { html, part } from "./elements.js"
import { COLOURS, isColour } from "./shapes.js"

const ZOOM = 1.25
const HINTS = {
  select: "Drag an object, or a box around several. Space and a drag moves the view.",
  rect: "Drag on the paper, or click, to draw a rectangle. Shift makes it a square.",
  ellipse: "Drag on the paper, or click, to draw an ellipse. Shift makes it a circle.",
  line: "Drag on the paper, or click, to draw a line. Shift: multiples of 45°. Alt: it sticks to no shape.",
  arrow: "Drag from shape to shape, and the arrow sticks to both. Shift: multiples of 45°. Alt: it sticks to none.",
  pen: "Drag on the paper to draw by hand. Press Escape to stop.",
  text: "Click where the text is to begin. Escape, or a click elsewhere, ends it.",
}
const KEPT_HINT = "The tool stays until Escape."
// By key: the tool that it takes.
const TOOL_KEYS = { v: "select", r: "rect", o: "ellipse", l: "line", a: "arrow", p: "pen", t: "text" }

export class Toolbar {
  /** The current tool. */
  tool = "select"
  /** Whether it stays after it has drawn something. */
  isKept = false
  /** The colour of the next shape. */
  colour = [...COLOURS.keys()][3]

  /** @param {import("./whiteboard.js").Page} page */
  constructor(page) {
    this.page = page
    this.#makeColours()
    this.#tellKeys()
    part("tools").addEventListener("click", ({ target }) => {
      const { tool } = target.closest("button")?.dataset ?? {}
      if (tool !== undefined) this.#take(tool)
    })
    const { camera, changes, clipboard, view } = page
    const acts = {
      undo: () => changes.undo(), redo: () => changes.redo(),
      copy: () => clipboard.copy(), paste: () => clipboard.paste(),
      "zoom-in": () => camera.zoom(ZOOM), "zoom-out": () => camera.zoom(1 / ZOOM), "fit-all": () => view.fitAll(),
      scale: () => camera.zoom(1 / camera.scale),
    }
    for (const [id, act] of Object.entries(acts)) part(id).addEventListener("click", act)
    this.use(this.tool)
    this.#useColour(this.colour)
  }

  /** Takes a tool that the user chose. The one that the user has already is kept, or kept no more. */
  #take(tool) {
    const isKept = tool === this.tool && tool !== "select" && !this.isKept
    this.use(tool)
    this.isKept = isKept
    document.querySelector(`button[data-tool="${tool}"]`).classList.toggle("kept", isKept)
    this.tellHint()
  }

  /** Says how the tool is used. */
  tellHint() {
    this.tell(this.isKept ? `${KEPT_HINT} ${HINTS[this.tool]}` : HINTS[this.tool])
  }

  /** Says something in place of the hint, until another tool is taken. */
  tell(words) {
    part("hint").textContent = words
  }

  /** Another tool after something was drawn, unless the tool is kept. */
  end() {
    if (!this.isKept) this.use("select")
  }

  /** Switches to another tool. A drawing tool clears the selection. */
  use(tool) {
    this.isKept = false
    if (tool !== "select" && this.page.board.selection.size > 0) this.page.selectAll([])
    this.tool = tool
    part("board").dataset.tool = tool
    this.tellHint()
    this.page.view.change([])
    for (const one of document.querySelectorAll("button[data-tool]")) {
      one.setAttribute("aria-pressed", one.dataset.tool === tool)
      one.classList.remove("kept")
    }
  }

  /** Switches to the tool of a key. Returns whether there is one. */
  useKey(key) {
    const letter = key.toLowerCase()
    if (!Object.hasOwn(TOOL_KEYS, letter)) return false
    this.#take(TOOL_KEYS[letter])
    return true
  }

  #tellKeys() {
    for (const [key, tool] of Object.entries(TOOL_KEYS)) {
      const button = document.querySelector(`button[data-tool="${tool}"]`)
      button.title = `${button.textContent.trim()} (${key.toUpperCase()})`
      button.setAttribute("aria-keyshortcuts", key.toUpperCase())
    }
  }

  /** Enables the buttons that have an effect. */
  draw() {
    const { board, changes, clipboard } = this.page
    part("undo").disabled = !changes.canUndo
    part("redo").disabled = !changes.canRedo
    part("copy").disabled = board.chosen.length === 0
    part("paste").disabled = !clipboard.isFull
  }

  #useColour(value) {
    this.colour = value
    for (const one of part("colours").querySelectorAll("button")) {
      one.setAttribute("aria-pressed", one.dataset.colour === value)
    }
    part("own-colour").parentNode.classList.toggle("chosen", !COLOURS.has(value))
    part("own-colour").value = value
  }

  /** Sets the colour of the next shape and of the selected one. */
  #choose(value) {
    if (!isColour(value)) return
    this.#useColour(value)
    this.page.style.colour()
    this.page.changes.change({ fill: value })
    this.page.view.change([])
  }

  #makeColours() {
    const buttons = [...COLOURS].map(([value, name]) => {
      const colour = html("button", { type: "button", className: "colour", title: name, dataset: { colour: value } })
      colour.style.background = value
      colour.setAttribute("aria-label", name)
      colour.addEventListener("click", () => this.#choose(value))
      return colour
    })
    part("colours").prepend(...buttons)
    part("own-colour").addEventListener("change", ({ target }) => this.#choose(target.value))
  }
}
