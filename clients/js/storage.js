/**
 * What a client saves so that a reloaded page can continue: the room, its site, the record, and its pending changes.
 * They are saved as texts in a storage, under keys made of the server's address and the first room's name.
 */

import { LIMITS } from "./forms.js"
import { readText, writeText } from "./json_text.js"
import { isAfter } from "./room_names.js"

/**
 * @typedef {{ getItem(key: string): string | null, setItem(key: string, text: string): void, removeItem(key: string):
 *   void }} Storage the part of the browser's `sessionStorage` that the library uses
 */

/**
 * What the keys of a client's saved state begin with.
 * @param {string} address of the server
 * @param {string} name of the first room
 * @param {number} seat from 1: which of the clients of this storage it is
 */
export const prefixOf = (address, name, seat) => `grace ${address} ${name}${seat === 1 ? "" : ` seat ${seat}`}`

/**
 * Whether unsent changes are saved under these keys.
 * @param {Storage} storage
 * @param {string} prefix as of `prefixOf`
 */
export const hasSavedChanges = (storage, prefix) => (storage.getItem(`${prefix} changes`) ?? "[]") !== "[]"

/**
 * Removes the saved record, which can be loaded again.
 * @param {Storage} storage
 * @param {string} prefix as of `prefixOf`
 */
export function removeRecord(storage, prefix) {
  const key = (piece) => `${prefix} record ${piece}`
  for (let piece = 0; storage.getItem(key(piece)) !== null; piece++) storage.removeItem(key(piece))
}

// The record is saved in pieces of this many entries, so that new entries rewrite the last piece alone.
const PIECE = 64

/** The saved state of one client in one room. If the storage is full, only the site stays saved. */
export class SavedState {
  #storage
  #name
  #prefix
  #isFull

  /**
   * @param {Storage | null} storage null saves nothing
   * @param {string} address of the server
   * @param {string} name of the first room
   * @param {number} [seat] which of the clients of this storage it is, from 1
   */
  constructor(storage, address, name, seat = 1) {
    this.#storage = storage
    this.#name = name
    this.#prefix = prefixOf(address, name, seat)
    this.#isFull = storage === null
  }

  /**
   * Reads the saved state.
   * @returns {{ room: string, site: number, record: any[][], changes: any[][] } | null} `changes` as entries; null if
   *   nothing is saved
   * @throws {SyntaxError} the saved state is damaged
   */
  read() {
    if (this.#storage === null || !this.#has("site")) return null
    const record = []
    for (let piece = 0; this.#has(`record ${piece}`); piece++) record.push(...this.#get(`record ${piece}`))
    const site = this.#get("site")
    // One more than there are: a client may read a room that has ended as a site that it never had.
    const isSite = Number.isInteger(site) && site >= 1 && site <= LIMITS.sites + 1
    if (!isSite) throw new SyntaxError("the saved site is invalid")
    return { room: this.#room(), site, record, changes: this.#has("changes") ? this.#get("changes") : [] }
  }

  /**
   * Saves the site, and the room that it belongs to.
   * @param {number} site
   * @param {string} room
   */
  saveSite(site, room) {
    if (this.#storage === null) return
    this.#set("site", site)
    if (room !== this.#name) this.#set("room", room)
  }

  /**
   * Saves the record.
   * @param {readonly any[][]} record
   * @param {number} from the index of the first entry that is not saved yet
   */
  saveRecord(record, from) {
    for (let piece = Math.floor(from / PIECE); piece * PIECE < record.length && !this.#isFull; piece++) {
      this.#save(`record ${piece}`, record.slice(piece * PIECE, (piece + 1) * PIECE))
    }
  }

  /**
   * Saves the changes that the record lacks.
   * @param {any[][]} changes as entries
   */
  saveChanges(changes) {
    if (!this.#isFull) this.#save("changes", changes)
  }

  /** Removes the saved state. */
  clear() {
    if (this.#storage === null) return
    this.#clearRecord()
    this.#remove("site")
    this.#remove("room")
    this.#isFull = false
  }

  #room() {
    if (!this.#has("room")) return this.#name
    const room = this.#get("room")
    if (!isAfter(room, this.#name)) throw new SyntaxError("the saved room is invalid")
    return room
  }

  #clearRecord() {
    removeRecord(this.#storage, this.#prefix)
    this.#remove("changes")
  }

  #key(part) {
    return `${this.#prefix} ${part}`
  }

  #has(part) {
    return this.#storage.getItem(this.#key(part)) !== null
  }

  #get(part) {
    return readText(this.#storage.getItem(this.#key(part)))
  }

  #remove(part) {
    this.#storage.removeItem(this.#key(part))
  }

  /** Whether the storage accepted the value. */
  #set(part, value) {
    try {
      this.#storage.setItem(this.#key(part), writeText(value))
      return true
    } catch {
      return false
    }
  }

  #save(part, value) {
    if (this.#set(part, value)) return
    // A record with a gap is useless, and so are changes without the record that they build on.
    this.#isFull = true
    this.#clearRecord()
  }
}
