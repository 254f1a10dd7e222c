/** The people in the room: the others, as their notes say, and this page. notes.js has the form of a note. */

import { OwnNote } from "./own_note.js"
import { PALETTE, colourOf, fittingName, readNote } from "./notes.js"
import { allowName, isNameAllowed, storeName, storedName } from "./own_name.js"
import { guestWords } from "./words.js"

/**
 * A person who is here. The same object as long as the note is the same.
 * @typedef {import("./notes.js").Note & { site: number, text: string, colour: string }} Person
 */

export class People {
  /** The others, sorted by site. @type {Person[]} */
  others = []
  /** Whether the user was asked for a name. */
  isAsked
  /** Whether the user's changes carry the user's name. */
  isNameKept = isNameAllowed()
  #own
  #listeners = []

  /**
   * @param {import("./board.js").Board} board
   * @param {Element} surface on which the pointer is told
   * @param {(event: PointerEvent) => [number, number]} placeOf
   */
  constructor(board, surface, placeOf) {
    this.room = board.room
    this.#own = new OwnNote(board, () => this.others.length > 0 && !document.hidden)
    const name = storedName()
    this.isAsked = name !== null
    this.#own.name = name ?? ""
    this.#listen(surface, placeOf)
  }

  /** Adds a listener, which is called when somebody came, left or wrote another note. */
  onChange(listener) {
    this.#listeners.push(listener)
  }

  /** This page as a person. */
  get own() {
    const { site } = this.room
    const { colour, name } = this.#own
    return { site, name: name || (site === null ? "" : guestWords(site)), colour: PALETTE[colour ?? 0] }
  }

  /** The name that the user has told, or an empty text. */
  get ownName() {
    return this.#own.name
  }

  /** The name that the user's changes carry, or an empty text. */
  get keptName() {
    return this.isNameKept ? this.ownName : ""
  }

  /** Takes whether the user's changes carry the user's name. */
  keepName(isKept) {
    this.isNameKept = isKept
    allowName(isKept)
  }

  /** Takes the user's name, which may be empty. */
  rename(text) {
    this.isAsked = true
    this.#own.name = fittingName(text)
    storeName(this.#own.name)
    this.write()
    this.#tell()
  }

  /** Writes this page's note, if it says something new. */
  write() {
    this.#own.write()
  }

  #listen(surface, placeOf) {
    this.room.on("notes", () => this.#hear())
    this.room.on("state", () => this.#hear())
    document.addEventListener("visibilitychange", () => {
      if (document.hidden) this.#own.pointer = null
      this.write()
    })
    surface.addEventListener("pointermove", (event) => this.#point(placeOf(event)))
    for (const event of ["pointerleave", "pointercancel"]) surface.addEventListener(event, () => this.#point(null))
  }

  #point(place) {
    this.#own.pointer = place
    this.write()
  }

  #hear() {
    const known = new Map(this.others.map((person) => [person.site, person]))
    const isOther = ([site, text]) => site !== this.room.site && text !== ""
    this.others = [...this.room.notes].filter(isOther).map(([site, text]) => {
      const old = known.get(site)
      return old?.text === text ? old : personOf(site, text)
    })
    this.write()
    this.#tell()
  }

  #tell() {
    for (const listener of this.#listeners) listener()
  }
}

/** @returns {Person} */
function personOf(site, text) {
  const note = readNote(text)
  const colour = PALETTE[note.colour ?? colourOf(site)]
  return { ...note, site, text, name: note.name || guestWords(site), colour }
}
