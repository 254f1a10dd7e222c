/**
 * The versions that the user is changing by a drag or by keys. The page shows them as they will be, and puts them in
 * one step at the end. A hold keeps other people's changes back meanwhile. So the changes say that their author had not
 * seen those, and they conflict.
 */

import { NO_PREVIEWS, keyOf } from "./board.js"
import { moveAttributes, moveLineAttributes } from "./shapes.js"

export class Hand {
  #release
  #unlisten

  /**
   * @param {import("./whiteboard.js").Page} page
   * @param {{ name: any, version: any }[]} chosen
   */
  constructor(page, chosen) {
    const { board, room } = page
    this.page = page
    this.items = chosen.map(({ name, version }) =>
      ({ name, version, shape: board.shapes(name)[board.shown(name).indexOf(version)], attributes: {} }))
    this.#release = room.hold()
    this.#unlisten = room.on("change", ({ renamed }) => this.#follow(renamed))
  }

  /** Whether these are the versions in hand. */
  holds(chosen) {
    const isThere = ({ version }, place) => this.items[place]?.version === version
    return chosen.length === this.items.length && chosen.every(isThere)
  }

  /**
   * Shows the versions with other attributes.
   * @param {(shape: any) => Record<string, any>} attributesOf
   */
  show(attributesOf) {
    const { board, view } = this.page
    for (const item of this.items) item.attributes = attributesOf(item.shape)
    board.previews = new Map(this.items.map((item) => [keyOf(item.name), item]))
    view.redraw(this.items.map(({ name }) => name))
  }

  /** Shows the versions elsewhere. */
  move(x, y) {
    const moved = new Set(this.items.map(({ shape }) => shape.id))
    this.show((shape) => (shape.kind === "line" && (shape.from !== "" || shape.to !== "")
      ? moveLineAttributes(shape, x, y, moved) : moveAttributes(shape, x, y)))
  }

  /** Puts what is shown, unless the user has cancelled it. */
  end(isWhole) {
    const { board, changes, view } = this.page
    this.#unlisten()
    board.previews = NO_PREVIEWS
    if (isWhole) changes.step(() => this.items.forEach((item) => this.#put(item)))
    this.#release()
    view.change(this.items.map(({ name }) => name))
  }

  #put({ name, version, attributes }) {
    const { board, changes, room } = this.page
    const isOther = ([key, value]) => version.attributes.get(key) !== value
    if (!room.has(name) || !Object.entries(attributes).some(isOther)) return
    const now = board.successors(name, version)[0] ?? board.picked(name)
    if (now !== null) changes.put(name, now, attributes)
  }

  /** The user's own objects may get other names. */
  #follow(renamed) {
    const names = new Map(renamed.map(([old, name]) => [keyOf(old), name]))
    for (const item of this.items) item.name = names.get(keyOf(item.name)) ?? item.name
  }
}
