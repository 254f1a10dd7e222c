/** Numbers that move to where they are told in a short time, in place of a step: the places of others come in steps. */

import { isStill } from "./preferences.js"

// A little longer than the notes of a person are apart.
const MILLISECONDS = 130

export class Glide {
  #from
  #to
  #begun = -Infinity

  /** @param {number[]} place */
  constructor(place) {
    this.#from = place
    this.#to = place
  }

  /** Where it is going. */
  get end() {
    return this.#to
  }

  /** Goes on to another place, from where it is now. */
  go(place, now) {
    if (place.every((number, side) => number === this.#to[side])) return
    this.#from = isStill() ? place : this.at(now)
    this.#to = place
    this.#begun = now
  }

  at(now) {
    const part = Math.min(1, (now - this.#begun) / MILLISECONDS)
    return this.#to.map((number, side) => this.#from[side] + (number - this.#from[side]) * part)
  }

  isMoving(now) {
    return now - this.#begun < MILLISECONDS
  }
}
