/** How the next objects look: as the user last chose it, for the next ones or for what was selected. */

import { USUAL_SIZE } from "./lettering.js"
import { NEW_SHAPES, NO_FILL, USUAL_THICKNESS, isArea } from "./shapes.js"

const PEN = "pen"
const TEXT = "text"

export class Style {
  // The size of letters of a text that stands for itself.
  #size = USUAL_SIZE
  // The widths of lines, and of edges, which are half as wide.
  #lineWidth = USUAL_THICKNESS
  #edgeWidth = USUAL_THICKNESS
  #outline = ""
  #isFilled = true
  // What the tool for arrows draws.
  #arrow = "end"

  /** @param {import("./whiteboard.js").Page} page */
  constructor(page) {
    this.page = page
  }

  /** What a tool draws next: a shape without a place, or null if it is no tool that draws. @param {string} tool */
  shapeOf(tool) {
    const { colour: fill } = this.page.tools
    if (tool === TEXT) return { kind: TEXT, fill, size: this.#size, text: "" }
    if (tool === PEN) return { kind: PEN, fill, thickness: this.#lineWidth, text: "" }
    if (!Object.hasOwn(NEW_SHAPES, tool)) return null
    const { kind, arrow } = NEW_SHAPES[tool]
    if (!isArea({ kind })) return { kind, fill, thickness: this.#lineWidth, text: "", arrow: arrow && this.#arrow }
    const area = { kind, outline: this.#outline, thickness: this.#edgeWidth, text: "", arrow }
    return { ...area, fill: this.#isFilled ? fill : NO_FILL }
  }

  /**
   * The user has chosen this for objects that are selected, or for the next ones.
   * @param {Record<string, any>} attributes @param {any[]} shapes these objects
   */
  choose({ arrow, fill, outline, size, thickness }, shapes) {
    if (thickness !== undefined && shapes.some(isArea)) this.#edgeWidth = thickness
    if (thickness !== undefined && !shapes.every(isArea)) this.#lineWidth = thickness
    if (size !== undefined) this.#size = size
    if (outline !== undefined) this.#outline = outline
    if (fill !== undefined) this.#isFilled = fill !== NO_FILL
    if (arrow) this.#arrow = arrow
  }

  /** The user has chosen a colour. Shapes have a fill again, unless it is for a line or a text. */
  colour() {
    const { board, tools } = this.page
    const next = this.shapeOf(tools.tool)
    const chosen = board.chosen.map(({ name }) => ({ kind: board.room.kind(name) }))
    const all = next === null ? chosen : [next]
    if (all.length === 0 || all.some(isArea)) this.#isFilled = true
  }
}
