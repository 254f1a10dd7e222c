/**
 * The room that the page's address names. This module needs few others, so it runs first: the room's record is on its
 * way while the browser loads the rest of the page.
 */

import { Events } from "../../clients/js/events.js"
import { Room } from "../../clients/js/grace.js"
import { placeOfPage } from "./links.js"

// All but `notes`, which nobody is sent before the page asks for them.
const EVENTS = ["change", "state", "progress", "refusal", "reset", "renewed", "transaction"]

/** A room that keeps its news until the page can take them. */
export class OpenedRoom extends Room {
  #events = new Events(...EVENTS)
  /** @type {[string, any][] | null} */
  #kept = []

  /** @param {string} address @param {string} roomName */
  constructor(address, roomName) {
    super(address, roomName, { storage: "person", roomInPath: true, lookIfFull: true })
    for (const event of /** @type {any[]} */ (EVENTS)) super.on(event, (news) => this.#tell(event, news))
  }

  /** @param {any} event @param {(news: any) => void} listener @returns {() => void} removes the listener */
  on(event, listener) {
    return event === "notes" ? super.on(event, listener) : this.#events.on(event, listener)
  }

  /** Tells what was kept, in its order. From now on nothing is kept. */
  begin() {
    const kept = this.#kept ?? []
    this.#kept = null
    for (const [event, news] of kept) this.#events.emit(event, news)
  }

  #tell(event, news) {
    if (this.#kept === null) this.#events.emit(event, news)
    else this.#kept.push([event, news])
  }
}

/** The name and the room, or why there is none. */
function open() {
  try {
    const { roomName, server } = placeOfPage()
    return { roomName, room: new OpenedRoom(server, roomName) }
  } catch (fault) {
    return { fault }
  }
}

const opened = open()

/** Returns the room with its first name. @throws {Error} the page's address names none */
export function openedRoom() {
  if (opened.fault !== undefined) throw opened.fault
  return opened
}
