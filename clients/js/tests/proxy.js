/**
 * A proxy between clients and `grace serve`. It can cut connections between a request and its reply, hold waits, delay
 * all bytes, and answer handshakes in place of the server. `whatToDo` decides about each message of a client.
 */

import { connect, createServer } from "node:net"
import { firstFrame } from "./websocket.js"

export const PASS = "pass"
/** The proxy cuts the connection; the message does not reach the server. */
export const CUT_BEFORE = "cut before"
/** The message reaches the server, but its reply does not reach the client. */
export const CUT_AFTER = "cut after"
/** The proxy cuts the connection; the message reaches the server a little later. */
export const CUT_LATE = "cut late"

const LATE_MILLISECONDS = 100
const HOLD_MILLISECONDS = 25000

/** What the proxy does with waits: it leaves them to the server, has them answered at once, or holds them itself. */
export const LEFT = "left"
export const AT_ONCE = "at once"
export const HELD = "held"

/** The connections of one client and to the server. */
class Pair {
  #bytes = Buffer.alloc(0)
  #isHandshake = true
  #isCutting = false
  #held = null
  #timer = null

  constructor(client, proxy) {
    this.client = client
    this.proxy = proxy
    this.server = connect({ port: proxy.port, host: "127.0.0.1", noDelay: true })
    for (const socket of [client, this.server]) {
      socket.on("error", () => this.cut())
      socket.on("close", () => this.cut())
    }
    client.on("data", (piece) => this.#fromClient(piece))
    this.server.on("data", (piece) => this.#fromServer(piece))
  }

  cut() {
    clearTimeout(this.#timer)
    this.client.destroy()
    this.server.destroy()
  }

  /** Passes the held wait on. */
  release() {
    clearTimeout(this.#timer)
    if (this.#held !== null) this.#write(this.server, this.#held)
    this.#held = null
  }

  #fromServer(piece) {
    if (this.#isCutting) return this.cut()
    this.#write(this.client, piece)
    this.proxy.hear(piece.toString())
  }

  /** Sends bytes on, after half a round trip. */
  #write(socket, bytes) {
    const { roundTripMilliseconds } = this.proxy
    if (roundTripMilliseconds === 0) socket.write(bytes)
    else setTimeout(() => socket.write(bytes), roundTripMilliseconds / 2)
  }

  #hangUp(last) {
    this.#isCutting = true
    this.client.removeAllListeners("close")
    this.client.destroy()
    setTimeout(() => this.server.write(last), LATE_MILLISECONDS)
  }

  #fromClient(piece) {
    if (this.#isHandshake) return this.#shakeHands(piece)
    this.#bytes = Buffer.concat([this.#bytes, piece])
    for (let frame = firstFrame(this.#bytes); frame !== null && !this.#isCutting; frame = firstFrame(this.#bytes)) {
      const whole = this.#bytes.subarray(0, frame.size)
      const text = textOf(whole, frame)
      const what = this.proxy.decide(text)
      this.#bytes = this.#bytes.subarray(frame.size)
      if (what === CUT_BEFORE) return this.cut()
      if (what === CUT_LATE) return this.#hangUp(whole)
      if (what === CUT_AFTER) this.#cutSoon()
      this.#pass(whole, text, frame)
    }
  }

  /** Passes the head of a client on, or answers it. */
  #shakeHands(piece) {
    const head = Buffer.concat([this.#bytes, piece])
    this.#isHandshake = !head.includes("\r\n\r\n")
    this.#bytes = this.#isHandshake ? head : Buffer.alloc(0)
    if (this.#isHandshake) return
    const answer = this.proxy.answer(head.toString())
    if (answer === undefined) return this.#write(this.server, head)
    this.client.end([...answer, "Content-Length: 4", "", "page"].join("\r\n"))
  }

  /** Cuts at the reply, or soon if the server holds it. */
  #cutSoon() {
    this.#isCutting = true
    setTimeout(() => this.cut(), LATE_MILLISECONDS)
  }

  #pass(whole, text, frame) {
    this.release()
    const [word, from] = text.startsWith('["wait"') ? JSON.parse(text) : []
    if (word === undefined || this.proxy.waits === LEFT) return this.#write(this.server, whole)
    if (this.proxy.waits === AT_ONCE) return this.#write(this.server, asPull(whole, frame))
    this.#held = whole
    if (from < this.proxy.length) this.release()
    else this.#timer = setTimeout(() => this.release(), HOLD_MILLISECONDS)
  }
}

/** Returns the frame of a wait as that of a pull, which has the same size. */
function asPull(whole, { payload }) {
  const pull = Buffer.from(whole)
  const start = whole.length - payload.length
  for (const [place, letter] of [..."pull"].entries()) {
    pull[start + 2 + place] = letter.charCodeAt(0) ^ whole[start - 4 + ((2 + place) % 4)]
  }
  return pull
}

/** Returns the unmasked text of a client's frame. */
function textOf(whole, { payload }) {
  const key = whole.subarray(whole.length - payload.length - 4, whole.length - payload.length)
  return Buffer.from(payload.map((byte, place) => byte ^ key[place % 4])).toString()
}

/** A proxy on its own port. New connections go to the server at `port`. */
export class Proxy {
  /** Decides about a message, by its text: returns one of the constants above. */
  whatToDo = () => PASS
  waits = LEFT
  /** How long a message and its reply are on the line. */
  roundTripMilliseconds = 0
  cuts = 0
  /** The heads of clients, each with its time, and the answers to the next of them in place of the server's. */
  heads = []
  answers = []
  /** How many entries the record has, if all clients are behind this proxy. */
  length = 0
  #pairs = new Set()

  static async start(port) {
    const proxy = new Proxy()
    proxy.port = port
    proxy.server = createServer({ noDelay: true }, (client) => {
      const pair = new Pair(client, proxy)
      proxy.#pairs.add(pair)
      client.on("close", () => proxy.#pairs.delete(pair))
    })
    await new Promise((tell) => proxy.server.listen(0, "127.0.0.1", tell))
    proxy.address = `127.0.0.1:${proxy.server.address().port}`
    return proxy
  }

  /** Cuts all connections. */
  cut() {
    for (const pair of this.#pairs) pair.cut()
  }

  /** Cuts once, in this way, at the first message that begins with `start`. */
  cutOnce(start, what) {
    this.whatToDo = (text) => {
      if (!text.startsWith(start)) return PASS
      this.whatToDo = () => PASS
      return what
    }
  }

  end() {
    this.server.close()
    this.cut()
  }

  /** Decides about a message. */
  decide(text) {
    const what = this.whatToDo(text)
    if (what !== PASS) this.cuts += 1
    return what
  }

  /** Returns the lines of the answer to a head; undefined leaves it to the server. */
  answer(head) {
    this.heads.push({ head, at: performance.now() })
    return this.answers.shift()
  }

  /** Hears what the server sends: a new entry ends all held waits. */
  hear(text) {
    const added = text.match(/\["(?:joined|made|taken)",\d+/g)
    if (added === null) return
    this.length = Math.max(this.length, ...added.map((reply) => Number(reply.split(",")[1]) + 1))
    for (const pair of this.#pairs) pair.release()
  }
}
