/** The operations of the room's record by name, when the page first saw them, and attributes of deleted versions. */

import { operationOf } from "../../clients/js/grace.js"
import { keyOf } from "./board.js"

export class Entries {
  #byKey = new Map()
  // By operation: when this page first saw it.
  #seen = new Map()
  #record = null
  #read = 0

  /** @param {import("../../clients/js/grace.js").Room} room */
  constructor(room) {
    this.room = room
  }

  /** The operation with this name, from the record or the pending changes; null if there is none. */
  find(name) {
    this.readNew()
    return this.#byKey.get(keyOf(name)) ?? this.#pending(name)?.operation ?? null
  }

  /**
   * When this page first saw an operation, in milliseconds since 1970, and whether it was there when the page loaded
   * the room.
   * @returns {{ time: number, wasThere: boolean }}
   */
  seenAt(name) {
    this.readNew()
    const made = this.#pending(name)?.made ?? 0
    return this.#seen.get(keyOf(name)) ?? { time: performance.timeOrigin + made, wasThere: false }
  }

  /** The attributes that a version had before it was deleted: those of the creation, then those of its puts. */
  attributesOf(name, version) {
    const operations = [name, ...version.members].map((member) => this.find(member))
    const pairs = operations.flatMap((operation) => operation?.attributes ?? [])
    return new Map(pairs)
  }

  /** Whether the author of an operation had seen another operation. */
  hadSeen(operation, [site, number]) {
    return operation.seen.some(([other, count]) => other === site && count >= number)
  }

  /** Reads the new entries of the record, as now seen. After a restart of the room it starts again. */
  readNew() {
    const { isLoaded, record } = this.room
    const isNew = record !== this.#record
    if (isNew) {
      this.#byKey.clear()
      this.#seen.clear()
      this.#read = 0
      this.#record = record
    }
    const seen = { time: Date.now(), wasThere: isNew || !isLoaded }
    for (; this.#read < record.length; this.#read++) this.#take(operationOf(record[this.#read]), seen)
  }

  #take(operation, seen) {
    if (operation === null) return
    this.#byKey.set(keyOf(operation.name), operation)
    this.#seen.set(keyOf(operation.name), seen)
  }

  #pending(name) {
    return this.room.pending.find((change) => keyOf(change.name) === keyOf(name))
  }
}
