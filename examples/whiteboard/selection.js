/** The selected objects, in the order in which they were selected. */

import { keyOf } from "./board.js"

export class Selection {
  // By key: the name.
  #names = new Map()

  get size() {
    return this.#names.size
  }

  /** @type {[number, number][]} */
  get names() {
    return [...this.#names.values()]
  }

  /** The first selected object, or null. */
  get first() {
    return this.#names.values().next().value ?? null
  }

  has(name) {
    return this.#names.size > 0 && this.#names.has(keyOf(name))
  }

  /** Selects these objects alone. */
  set(names) {
    this.#names = new Map(names.map((name) => [keyOf(name), name]))
  }

  /** Adds these objects, or takes them out if all of them are selected. */
  toggle(names) {
    const isOut = names.every((name) => this.has(name))
    for (const name of names) {
      if (isOut) this.remove(name)
      else this.#names.set(keyOf(name), name)
    }
  }

  remove(name) {
    this.#names.delete(keyOf(name))
  }

  /** Takes other names of objects, all at once. @param {Map<string, [number, number]>} names by key */
  rename(names) {
    if (this.names.some((name) => names.has(keyOf(name)))) {
      this.set(this.names.map((name) => names.get(keyOf(name)) ?? name))
    }
  }
}
