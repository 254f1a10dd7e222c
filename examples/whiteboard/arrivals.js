/**
 * Says who came and who left, at most once in two seconds. It does not tell of those who are there at the beginning,
 * nor of somebody who comes back at once, as by a reload.
 */

import { arrivalWords } from "./words.js"

const PAUSE_MILLISECONDS = 2000

export class Arrivals {
  #whoIsHere
  #tell
  // The names by site of those who were here when it last looked; null at the beginning.
  #known = null
  #timer = null

  /**
   * @param {() => { site: number, name: string }[] | null} whoIsHere null if that is not known now
   * @param {(words: string) => void} tell
   */
  constructor(whoIsHere, tell) {
    this.#whoIsHere = whoIsHere
    this.#tell = tell
  }

  /** Begins again, as in a new room. */
  begin() {
    this.#known = null
  }

  /** Somebody may have come or left. It tells that some time later, with what else happens until then. */
  look() {
    this.#timer ??= setTimeout(() => {
      this.#timer = null
      this.#compare(this.#whoIsHere())
    }, PAUSE_MILLISECONDS)
  }

  #compare(people) {
    if (people === null) return
    const here = new Map(people.map(({ site, name }) => [site, name]))
    const known = this.#known ?? here
    this.#known = here
    const come = [...here].filter(([site]) => !known.has(site)).map(([, name]) => name)
    const left = [...known].filter(([site]) => !here.has(site)).map(([, name]) => name)
    if (come.length + left.length > 0) this.#tell(arrivalWords(come, left))
  }
}
