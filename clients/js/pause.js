/** Pauses between requests that are repeated, and between attempts to connect. */

const GROWTH = 1.25
// A connection that lasted this long resets the backoff. A connection that breaks sooner does not: otherwise the client
// would reconnect too often.
const STEADY_MILLISECONDS = 5000

/** A pause that is 1.25 times as long after each use. */
export class Pause {
  #shortest
  #longest
  #next

  /**
   * @param {number} shortest the first pause, in milliseconds
   * @param {number} longest in milliseconds
   */
  constructor(shortest, longest) {
    this.#shortest = shortest
    this.#longest = Math.max(shortest, longest)
    this.#next = shortest
  }

  /** The length of the next pause, in milliseconds. The one after it is longer. */
  take() {
    const milliseconds = this.#next
    this.#next = Math.min(milliseconds * GROWTH, this.#longest)
    return milliseconds
  }

  /** The next pause is the shortest again. */
  reset() {
    this.#next = this.#shortest
  }
}

/** The waits between attempts to connect. */
export class Backoff {
  #waits
  #tries = 0

  /** @param {number[]} waits in milliseconds; the last one repeats */
  constructor(waits) {
    this.#waits = waits
  }

  /**
   * A connection has ended.
   * @param {number} milliseconds how long it lasted
   */
  lasted(milliseconds) {
    if (milliseconds >= STEADY_MILLISECONDS) this.#tries = 0
  }

  /**
   * How long to wait before the next attempt, in milliseconds.
   * @param {number} asked how long the server asks the client to wait: the client does, up to its own longest wait
   */
  take(asked) {
    const wait = this.#waits[Math.min(this.#tries, this.#waits.length - 1)]
    this.#tries += 1
    return Math.max(wait, Math.min(asked, Math.max(...this.#waits)))
  }
}
