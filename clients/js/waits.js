/**
 * The waits for news. The server holds each until there is an entry, another message comes, or 25 seconds are over. It
 * also answers one when a note has changed, if the session has asked for notes.
 */

import { HOLD_MILLISECONDS } from "./connection.js"
import { writeText } from "./json_text.js"
import { Pause } from "./pause.js"

// A wait that is answered sooner than this, without news and without a message behind it, was not held.
const AT_ONCE_MILLISECONDS = 1000

/**
 * An outstanding wait. `reply` is the promise of the reply, which `isAnswered` says has come. `isQuestionBehind` says
 * whether the client has sent a request about notes behind it.
 * @typedef {{ from: number, reply: Promise<any[]>, sentAt: number, isAnswered: boolean, isQuestionBehind: boolean }}
 *   Wait
 */

/** Sends waits, and decides when the next one is due: at once, unless the server does not hold them. */
export class Waits {
  #pause
  #nextTime = 0

  /** @param {Required<import("./options.js").Options>} options */
  constructor({ pauseMilliseconds, longestPauseMilliseconds }) {
    this.#pause = new Pause(pauseMilliseconds, longestPauseMilliseconds)
  }

  /** The time until the next wait, in milliseconds; 0 or less if it is due. */
  get timeLeft() {
    return this.#nextTime - performance.now()
  }

  /** Someone changed the room: the next wait is due, and pauses are short again. */
  hurry() {
    this.#pause.reset()
    this.#nextTime = 0
  }

  /**
   * Sends a wait.
   * @param {import("./connection.js").Connection} connection
   * @param {number} from how many entries the client has
   * @returns {Wait}
   */
  send(connection, from) {
    const reply = connection.request(writeText(["wait", from]), HOLD_MILLISECONDS)
    const wait = { from, reply, sentAt: performance.now(), isAnswered: false, isQuestionBehind: false }
    reply.then(() => (wait.isAnswered = true), () => {})
    return wait
  }

  /**
   * A wait, behind which the client sent nothing, brought no entry. If the server did not hold it, there is a pause.
   * @param {Wait} wait
   */
  broughtNothing({ sentAt }) {
    const now = performance.now()
    if (now - sentAt < AT_ONCE_MILLISECONDS) this.#nextTime = now + this.#pause.take()
  }
}
