/**
 * A text that the user writes on a version. Other people's changes are drawn meanwhile. The text counts as written on
 * what the page showed at the beginning, so it overwrites no text that others wrote since: both stay, as versions.
 */

import { Refused } from "../../clients/js/grace.js"
import { keyOf } from "./board.js"
import { TEXT_SIZES } from "./lettering.js"
import { placeOf, styleAttributes } from "./shapes.js"
import { textAttributes, textIn } from "./texts.js"

export class TextEdit {
  #page
  #version
  #seen
  #kind
  #unlisten

  /**
   * @param {import("./whiteboard.js").Page} page
   * @param {any} version of the object `name`
   * @param {[number, number][]} seen the room's state vector of when the page showed this version
   */
  constructor(page, name, version, seen = page.room.seen) {
    this.#page = page
    this.#version = version
    this.#seen = seen
    this.#kind = page.room.kind(name)
    /** The object. It may get another name. */
    this.name = name
    /** The text at the beginning. */
    this.before = textIn(version.attributes)
    this.#unlisten = page.room.on("change", ({ renamed }) => this.#follow(renamed))
  }

  /** What the version has become, or null if it is deleted. */
  get version() {
    return this.#page.board.successors(this.name, this.#version)[0] ?? null
  }

  /**
   * Ends the writing with this text. Also what was deleted meanwhile gets the text. A text alone that is empty is
   * deleted.
   */
  end(text) {
    this.#unlisten()
    if (text === this.before) return
    const { changes, refusedChanges, room } = this.#page
    if (this.#isEmpty(text)) return changes.drop(this.name, [this.version])
    const written = textAttributes(text, this.#version.attributes)
    if (!room.has(this.name)) {
      const attributes = new Map([...this.#version.attributes, ...Object.entries(written)])
      return refusedChanges.refuse(new Refused("no-such-object"), { kind: this.#kind, attributes })
    }
    const change = changes.put(this.name, this.#version, written, { seen: this.#seen })
    if (change !== null) this.#page.select(change.object)
  }

  /** Whether nothing would be left to see. */
  #isEmpty(text) {
    return this.#kind === "text" && text.trim() === "" && this.#page.room.has(this.name) && this.version !== null
  }

  #follow(renamed) {
    const found = renamed.find(([old]) => keyOf(old) === keyOf(this.name))
    if (found !== undefined) this.name = found[1]
  }
}

/** A text that the user writes on empty paper. It becomes an object at its end, unless it is empty. */
export class NewText {
  #page
  // How the text will look, as it was when the user began.
  #style
  name = null
  version = null
  before = ""

  /** @param {import("./whiteboard.js").Page} page @param {[number, number]} place of the middle of its first line */
  constructor(page, [x, y]) {
    this.#page = page
    this.#style = page.style.shapeOf("text")
    this.place = { x, y: y - TEXT_SIZES[this.size] / 2 }
  }

  get size() {
    return this.#style.size
  }

  end(text) {
    const { changes, tools } = this.#page
    const { fill, size } = this.#style
    if (text.trim() === "") return tools.use("select")
    changes.draw("text", { ...placeOf(this.place), fill, ...styleAttributes({ size }), ...textAttributes(text) })
  }
}
