/**
 * How a client asks to be let into a room: as the site that it was, or as a new one. A room that was renewed goes on in
 * its successor.
 */

import { Lost } from "./connection.js"
import { ProtocolFault, Refused, RenewedAs } from "./forms.js"
import { loadAll } from "./loading.js"
import { Pause } from "./pause.js"
import { isAfter, successorOf } from "./room_names.js"

const STILL_CONNECTED = "The server still has your previous connection. Trying again."
const NOT_SERVED = "The server cannot open this room now: it may have no place for one more. Trying again."
const NOT_THERE_YET = "The server has not opened the next room of this drawing yet. Trying again."
const CANNOT_JOIN = "The server still has your previous connection, and the room is too full for a new one."
const NEXT_IS_FULL = "The next room of this drawing is full."
const IN_USE = "Others are reading the room."

// The first and the longest pause between attempts to rejoin as a site that the server says is in use.
const REJOIN_MILLISECONDS = 100
const LONGEST_REJOIN_MILLISECONDS = 1000
// How often to ask for a room that the server cannot serve, or has not opened yet.
const NOT_SERVED_MILLISECONDS = 1000
// The server names the newest room, so more steps than this are no renewals.
const MOST_STEPS = 8

// The refusals after which the client asks again over the same connection, and what it says then. The first says that
// the record has ended, and its successor is not open yet.
const ASKED_AGAIN = { "renewed": NOT_THERE_YET, "not-served": NOT_SERVED, "site-in-use": STILL_CONNECTED }

/**
 * What asks for the client: `request` sends a request and resolves with a reply of this kind. `wait` says why the
 * client is not in the room yet, and waits.
 * @typedef {{ request(request: any[], kind: string): Promise<any[]>, wait(words: string, milliseconds: number):
 *   Promise<void> }} Session
 */

/** Asks again while the server has the client's old session, or cannot serve the room. */
export class Entrance {
  #name
  #backMilliseconds
  #session

  /**
   * @param {string} name of the room
   * @param {number} backMilliseconds how long to ask while the server has the old session
   * @param {Session} session
   */
  constructor(name, backMilliseconds, session) {
    this.#name = name
    this.#backMilliseconds = backMilliseconds
    this.#session = session
  }

  /** The name of the room. */
  get name() {
    return this.#name
  }

  /** The client is in another room now. */
  set name(name) {
    this.#name = name
  }

  /**
   * Asks to come back as a site. While the server cannot serve the room, the time for which it asks has not begun.
   * @param {number} site
   * @returns {Promise<any[] | null>} the reply; null if the site is still in use when the time is over
   * @throws {Refused | RenewedAs | Lost}
   */
  async back(site) {
    const pause = new Pause(REJOIN_MILLISECONDS, LONGEST_REJOIN_MILLISECONDS)
    let end = Date.now() + this.#backMilliseconds
    for (;;) {
      const { reply, word } = await this.#ask(["back", this.#name, site], "back")
      if (reply !== undefined) return reply
      if (word === "site-in-use" && Date.now() >= end) return null
      await this.#session.wait(ASKED_AGAIN[word], word === "site-in-use" ? pause.take() : NOT_SERVED_MILLISECONDS)
      if (word !== "site-in-use") end = Date.now() + this.#backMilliseconds
    }
  }

  /**
   * Asks to come back as any site that is free, to read a room that has ended.
   * @param {string} name of the room
   * @returns {Promise<any[]>} the reply
   * @throws {Refused | RenewedAs | Lost}
   */
  async backAsAny(name) {
    const pause = new Pause(REJOIN_MILLISECONDS, LONGEST_REJOIN_MILLISECONDS)
    const end = Date.now() + this.#backMilliseconds
    while (Date.now() < end) {
      const reply = await this.#backAsFirstFree(name)
      if (reply !== null) return reply
      await this.#session.wait(`${IN_USE} Trying again.`, pause.take())
    }
    throw new Lost(IN_USE)
  }

  /**
   * Asks to join as a new site. In a full room a client that has a site keeps trying to rejoin.
   * @param {boolean} hasSite whether the client has been in the room
   * @returns {Promise<any[]>} the reply
   * @throws {Refused | RenewedAs | Lost}
   */
  join(hasSite) {
    return this.#join(this.#name, hasSite ? CANNOT_JOIN : null)
  }

  /**
   * Asks to join the newest room as a new site.
   * @param {boolean} hasSite as in `join`
   * @returns {Promise<any[]>} the reply
   * @throws {Refused | ProtocolFault | Lost}
   */
  async joinNewest(hasSite) {
    for (let step = 0; step < MOST_STEPS; step++) {
      try {
        return await this.join(hasSite)
      } catch (fault) {
        if (!(fault instanceof RenewedAs)) throw fault
        this.name = fault.room
      }
    }
    throw new ProtocolFault("The server names ever more rooms.")
  }

  /**
   * Joins the room's successor, and loads it. If that has ended too, reads it: `isIn` is then false, and nobody was in
   * it as this site.
   * @returns {Promise<{ name: string, site: number, record: any[][], isIn: boolean }>}
   * @throws {RenewedAs} the successor can no longer be read
   * @throws {Refused} `no-such-room`: the server does not open it. `Lost`
   */
  async enterSuccessor() {
    const name = successorOf(this.#name)
    if (name === null) throw new Refused("renewed")
    try {
      const [, at, site] = await this.#join(name, NEXT_IS_FULL, Date.now() + this.#backMilliseconds)
      return { name, site, record: await this.#load(at + 1), isIn: true }
    } catch (fault) {
      if (!(fault instanceof RenewedAs)) throw fault
    }
    const [, at] = await this.backAsAny(name)
    const record = await this.#load(at)
    await this.#session.request(["leave"], "left")
    return { name, site: nobodyIn(record), record, isIn: false }
  }

  /** Pulls this many entries of the room. */
  async #load(length) {
    const record = []
    await loadAll({
      progress: () => ({ have: record.length, of: length }),
      pull: (from) => this.#page(from),
      take: (entries) => record.push(...entries),
    })
    return record
  }

  async #page(from) {
    const [, , , entries] = await this.#session.request(["pull", from], "entries")
    if (!Array.isArray(entries) || entries.length === 0) throw new ProtocolFault("The server sent an empty page.")
    return entries
  }

  /** The reply to the first `back` as a site that is not in use; null if all are. */
  async #backAsFirstFree(name) {
    for (let site = 1; ; site++) {
      try {
        const { reply, word } = await this.#ask(["back", name, site], "back")
        if (reply !== undefined) return reply
        if (word === "not-served") return null
      } catch (fault) {
        if (fault.word !== "no-such-site" || site === 1) throw fault
        return null
      }
    }
  }

  /**
   * Asks to join. `fullWords` says that the client tries again later where the room is full. Until `opensUntil` a room
   * that is not there may still be opened.
   */
  async #join(name, fullWords, opensUntil = -Infinity) {
    for (;;) {
      try {
        const alsoAskedAgain = Date.now() < opensUntil ? ["no-such-room"] : []
        const { reply, word } = await this.#ask(["join", name], "joined", alsoAskedAgain)
        if (reply !== undefined) return reply
        await this.#session.wait(ASKED_AGAIN[word] ?? NOT_THERE_YET, NOT_SERVED_MILLISECONDS)
      } catch (fault) {
        const isFull = fault.word === "room-full" || fault.word === "record-full"
        throw isFull && fullWords !== null ? new Lost(fullWords) : fault
      }
    }
  }

  /** The reply, or the word of a refusal after which the client asks again. */
  async #ask(request, kind, alsoAskedAgain = []) {
    try {
      return { reply: await this.#session.request(request, kind) }
    } catch (fault) {
      const [, name] = request
      if (fault instanceof RenewedAs && !isAfter(fault.room, name)) {
        throw new ProtocolFault(`The server names ${fault.room} after ${name}.`)
      }
      if (!(fault.word in ASKED_AGAIN) && !alsoAskedAgain.includes(fault.word)) throw fault
      return { word: fault.word }
    }
  }
}

/**
 * A site that nobody was in a room.
 * @param {readonly any[][]} record of the room
 */
export const nobodyIn = (record) => record.filter(([word]) => word === "join").length + 1
