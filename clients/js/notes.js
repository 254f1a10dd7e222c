/** The notes of a room: the client's own one, and all that the server has. Also when to send what about them. */

import { ProtocolFault } from "./forms.js"
import { writeText } from "./json_text.js"

// How long after a `note` a changed one is sent, and the same one again.
const CHANGED_MILLISECONDS = 100
const SAME_MILLISECONDS = 20000

/**
 * An outstanding request about notes. `reply` is the promise of the reply, which `isAnswered` says has come.
 * @typedef {{ reply: Promise<any[]>, isAnswered: boolean }} Question
 */

/** Sends requests about notes once the program uses them, and decides when the next one is due. */
export class Notes {
  /** The client's own note: what the program last set. */
  own = ""
  #tell
  #now
  // What the session has last set as its note, and when.
  #sent = ""
  #sentAt = -Infinity
  // By site, in ascending order.
  #all = new Map()
  // A session that has asked for notes hears of them by its waits, so the client never stops using them.
  #isUsed = false
  #isIn = false
  // Whether the notes may have changed since the server last told them.
  #isStale = true

  /**
   * @param {(notes: Map<number, string>) => void} tell called with a copy of the notes when they have changed
   * @param {() => number} [now] the time in milliseconds
   */
  constructor(tell, now = () => performance.now()) {
    this.#tell = tell
    this.#now = now
  }

  /** A copy of the notes that the server has. */
  get all() {
    return new Map(this.#all)
  }

  /** The program uses notes from now on. */
  use() {
    this.#isUsed = true
  }

  /** The session has entered a room, in which it has no note yet. */
  enter() {
    this.#isIn = true
    this.#isStale = true
    this.#sent = ""
    this.#sentAt = -Infinity
  }

  /** The session is in no room any more. */
  leave() {
    this.#isIn = false
    this.#replace(new Map())
  }

  /** The server does not know notes, so the session sends nothing more about them. */
  giveUp() {
    this.#isIn = false
  }

  /** A wait brought no entry: some note may have changed. */
  mayHaveChanged() {
    this.#isStale = true
  }

  /** The time until the next request, in milliseconds; 0 or less if it is due. */
  get timeLeft() {
    if (!this.#isUsed || !this.#isIn) return Infinity
    return this.#isStale ? 0 : this.#ownTimeLeft
  }

  /** The time until the own note is sent. */
  get #ownTimeLeft() {
    const isSame = this.own === this.#sent
    if (isSame && this.own === "") return Infinity
    return this.#sentAt + (isSame ? SAME_MILLISECONDS : CHANGED_MILLISECONDS) - this.#now()
  }

  /**
   * Sends the next request: the own note if that is due, otherwise a question for all. The reply to both has all notes.
   * @param {import("./connection.js").Connection} connection
   * @returns {Question}
   */
  send(connection) {
    this.#isStale = false
    const reply = connection.request(writeText(this.#nextRequest()))
    const question = { reply, isAnswered: false }
    reply.then(() => (question.isAnswered = true), () => {})
    return question
  }

  #nextRequest() {
    if (this.#ownTimeLeft > 0) return ["notes"]
    this.#sent = this.own
    this.#sentAt = this.#now()
    return ["note", this.own]
  }

  /**
   * Takes the notes of a reply.
   * @param {unknown} pairs of site and text
   * @returns {boolean} whether the notes have changed
   * @throws {ProtocolFault} they are malformed
   */
  receive(pairs) {
    if (!Array.isArray(pairs) || !pairs.every(isNote)) throw new ProtocolFault("The server sent malformed notes.")
    return this.#replace(new Map(pairs))
  }

  #replace(notes) {
    if (haveSame(notes, this.#all)) return false
    this.#all = notes
    this.#tell(this.all)
    return true
  }
}

const isNote = (pair) =>
  Array.isArray(pair) && pair.length === 2 && Number.isInteger(pair[0]) && typeof pair[1] === "string"

const haveSame = (notes, others) =>
  notes.size === others.size && [...notes].every(([site, text]) => others.get(site) === text)
