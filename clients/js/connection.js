/** One WebSocket connection to a server. The server answers its requests in order. */

import { DENIED, Denied, GraceError, ProtocolFault } from "./forms.js"
import { readText } from "./json_text.js"

/** The connection failed: it could not be opened, it broke, or a reply took too long. */
export class Lost extends GraceError {
  name = "Lost"

  /**
   * @param {string} words
   * @param {number} [pauseMilliseconds] how long the server asks the client to wait before the next attempt
   */
  constructor(words, pauseMilliseconds = 0) {
    super(words)
    this.pauseMilliseconds = pauseMilliseconds
  }
}

/** How long a server may hold the reply to a wait, in milliseconds. */
export const HOLD_MILLISECONDS = 25000

// How much too early a timer may be.
const TIMER_MILLISECONDS = 2

// What to tell people when the server is there again later, by the status of the answer.
const UNAVAILABLE = {
  502: "The proxy does not reach the server.",
  503: "All places of the server are taken.",
  504: "The proxy does not reach the server.",
}

/**
 * @typedef {{ send(text: string): void, close(code?: number): void, onopen: any, onmessage: any, onclose: any, onerror:
 *   any }} Socket the part of `WebSocket` that the library uses. If the answer to the handshake opens no WebSocket, a
 *   socket may call `onerror` with an `Answer`. Those of browsers do not
 * @typedef {{ status: number, reason?: string, retryAfter?: number | string }} Answer to a handshake: its status, the
 *   text behind that, and the value of the field `Retry-After`
 */

/** @type {(status: number) => status is 401 | 403 | 404} */
const isDenial = (status) => status in DENIED

/**
 * The error that a failed connection means.
 * @param {Partial<Answer> | undefined} answer empty if the socket tells nothing
 */
function faultOf(answer) {
  const { status, reason = "", retryAfter } = answer ?? {}
  if (status === undefined) return new Lost("The connection failed.")
  if (isDenial(status)) return new Denied(status, reason)
  if (!(status in UNAVAILABLE)) {
    return new Lost(`The server did not accept the WebSocket handshake: ${`${status} ${reason}`.trimEnd()}.`)
  }
  const isNumber = /^\d{1,9}$/.test(String(retryAfter))
  return new Lost(UNAVAILABLE[status], isNumber ? Number(retryAfter) * 1000 : 0)
}

/** A connection. The promise `ended` resolves when the connection has ended, for any reason. */
export class Connection {
  #socket
  #replyMilliseconds
  // What the server owes, oldest first: each with the time from which it is owed.
  #outstanding = []
  // When the server last sent what it owed.
  #answeredAt = -Infinity
  #hasEnded = false
  #resolveEnded

  /**
   * @param {Socket} socket
   * @param {number} replyMilliseconds how long the handshake, or one reply, may take
   */
  constructor(socket, replyMilliseconds) {
    this.#socket = socket
    this.#replyMilliseconds = replyMilliseconds
    this.ended = new Promise((resolve) => (this.#resolveEnded = resolve))
    socket.onmessage = ({ data }) => this.#receive(data)
    socket.onclose = () => this.#end("The connection ended.")
    socket.onerror = (event) => this.#fail(faultOf(event))
  }

  /**
   * Resolves when the connection is open.
   * @throws {Lost} the connection could not be opened in time
   * @throws {Denied} the answer to the handshake was 401, 403 or 404, and the socket says so
   */
  opened() {
    const opened = this.#expect(0)
    this.#socket.onopen = () => this.#settle(null)
    return opened
  }

  /**
   * Sends a request at once, behind the outstanding ones, and waits for the reply. You may await the promise late: a
   * failure that nobody awaits is no uncaught error.
   * @param {string} text the request
   * @param {number} [holdMilliseconds] how long the server may hold the reply, beside the usual time
   * @returns {Promise<any[]>} the reply
   * @throws {Lost} the connection ended before the reply: the server may or may not have carried out the request
   * @throws {ProtocolFault} the reply is not a valid message
   */
  request(text, holdMilliseconds = 0) {
    const reply = this.#request(text, holdMilliseconds)
    reply.catch(() => {})
    return reply
  }

  /**
   * How long the server has owed a reply and sent none, in milliseconds; 0 if it owes none. A wait that it may hold is
   * not owed.
   */
  get silentMilliseconds() {
    const now = performance.now()
    return Math.max(0, ...this.#outstanding.map(({ owedFrom }) => now - Math.max(owedFrom, this.#answeredAt)))
  }

  /** Whether the connection has ended. */
  get hasEnded() {
    return this.#hasEnded
  }

  /** Closes the connection with close code 1000. Outstanding requests fail with `Lost`. */
  close() {
    this.#end("The connection was closed.")
  }

  async #request(text, holdMilliseconds) {
    if (this.#hasEnded) throw new Lost("The connection has ended.")
    const replyText = this.#expect(holdMilliseconds)
    try {
      this.#socket.send(text)
    } catch {
      this.#end("The connection failed.")
    }
    const reply = await replyText
    try {
      return readText(reply)
    } catch (fault) {
      throw new ProtocolFault(`The server sent an invalid message: ${fault.message}`)
    }
  }

  /** The next thing that the server owes when it has sent all outstanding ones. */
  #expect(holdMilliseconds) {
    return new Promise((resolve, reject) => {
      const owed = { resolve, reject, timer: null, owedFrom: performance.now() + holdMilliseconds }
      this.#outstanding.push(owed)
      this.#limit(owed, holdMilliseconds + this.#replyMilliseconds)
    })
  }

  /** Ends the connection after this time, or later if the server has sent other replies meanwhile. */
  #limit(owed, milliseconds) {
    owed.timer = setTimeout(() => {
      const left = Math.max(owed.owedFrom, this.#answeredAt) + this.#replyMilliseconds - performance.now()
      // A timer may be a little early.
      if (left > TIMER_MILLISECONDS) this.#limit(owed, left)
      else this.#end("The server did not answer in time.")
    }, milliseconds)
  }

  #settle(value) {
    const oldest = this.#outstanding.shift()
    if (oldest === undefined) return
    clearTimeout(oldest.timer)
    this.#answeredAt = performance.now()
    oldest.resolve(value)
  }

  #receive(data) {
    if (typeof data === "string") this.#settle(data)
    else this.#end("The server sent a message that is not text.")
  }

  #end(words) {
    this.#fail(new Lost(words))
  }

  #fail(fault) {
    if (this.#hasEnded) return
    this.#hasEnded = true
    for (const { reject, timer } of this.#outstanding.splice(0)) {
      clearTimeout(timer)
      reject(fault)
    }
    this.#resolveEnded()
    try {
      this.#socket.close(1000)
    } catch {
      // The socket is closed already.
    }
  }
}
