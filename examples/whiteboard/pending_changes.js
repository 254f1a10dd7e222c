/** Which objects have a change that has been pending for a while. */

import { keyOf } from "./board.js"

// Faster replies are not shown: the mark would flicker.
const SHOWN_AFTER_MILLISECONDS = 300

export class PendingChanges {
  #shown = new Set()
  #known = new WeakSet()

  /** @param {import("../../clients/js/grace.js").Room} room @param {() => void} changed */
  constructor(room, changed) {
    this.room = room
    this.changed = changed
  }

  /** The keys of the objects with such a change. */
  keys() {
    const shown = this.room.pending.filter((change) => this.#shown.has(change))
    return new Set(shown.map(({ object }) => keyOf(object)))
  }

  /** Starts to watch new changes. */
  look() {
    for (const change of this.room.pending) if (!this.#known.has(change)) this.#await(change)
  }

  #await(change) {
    this.#known.add(change)
    const timer = setTimeout(() => {
      this.#shown.add(change)
      this.changed()
    }, SHOWN_AFTER_MILLISECONDS)
    const end = () => {
      clearTimeout(timer)
      if (this.#shown.delete(change)) this.changed()
    }
    change.done.then(end, end)
  }
}
