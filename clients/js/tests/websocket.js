/**
 * As much of a browser's `WebSocket` as the library asks for, over `node:net`: for node without one. It tells the answer
 * to a handshake that opened no WebSocket, unless `isSilent` says that it is to be like a browser's.
 */

import { createHash, randomBytes } from "node:crypto"
import { connect } from "node:net"

const SUFFIX = "258EAFA5-E914-47DA-95CA-C5AB0DC85B11"
const TEXT = 1
const CLOSE = 8

/** A frame of a client. */
function frameOf(opcode, payload) {
  const { length } = payload
  const head = length < 126 ? Buffer.alloc(2) : Buffer.alloc(4)
  head[0] = 128 | opcode
  head[1] = 128 | (length < 126 ? length : 126)
  if (length >= 126) head.writeUInt16BE(length, 2)
  const key = randomBytes(4)
  return Buffer.concat([head, key, payload.map((byte, place) => byte ^ key[place % 4])])
}

/** Returns the first frame in these bytes and its size, or null if it is incomplete. */
export function firstFrame(bytes) {
  if (bytes.length < 2) return null
  const short = bytes[1] & 127
  const start = short < 126 ? 2 : short === 126 ? 4 : 10
  if (bytes.length < start) return null
  const length = short < 126 ? short : short === 126 ? bytes.readUInt16BE(2) : Number(bytes.readBigUInt64BE(2))
  const mask = bytes[1] & 128 ? 4 : 0
  const size = start + mask + length
  return bytes.length < size ? null : { opcode: bytes[0] & 15, payload: bytes.subarray(start + mask, size), size }
}

/** Returns what the head of an answer says. */
function answerOf(head) {
  const [, status, reason] = /^HTTP\/1\.1 (\d{3}) ?(.*)/.exec(head)
  return { status: Number(status), reason, retryAfter: /\r\nRetry-After: (.*)/.exec(head)?.[1] }
}

export class WebSocket {
  isSilent = false
  onopen = () => {}
  onmessage = () => {}
  onclose = () => {}
  onerror = () => {}
  #bytes = Buffer.alloc(0)
  #isOpen = false
  #key = randomBytes(16).toString("base64")

  constructor(address) {
    const { hostname, port, pathname, search } = new URL(address)
    this.socket = connect({ host: hostname, port: Number(port), noDelay: true })
    this.socket.on("connect", () => this.socket.write(this.#head(hostname, pathname + search)))
    this.socket.on("data", (piece) => this.#read(piece))
    this.socket.on("error", () => this.onerror({}))
    this.socket.on("close", () => this.onclose({}))
  }

  send(text) {
    this.socket.write(frameOf(TEXT, Buffer.from(text)))
  }

  close(code = 1000) {
    if (!this.#isOpen) return this.socket.destroy()
    this.socket.end(frameOf(CLOSE, Buffer.from([code >> 8, code & 255])))
  }

  #head(host, path) {
    return [
      `GET ${path} HTTP/1.1`, `Host: ${host}`, "Upgrade: websocket", "Connection: Upgrade", "Sec-WebSocket-Version: 13",
      `Sec-WebSocket-Key: ${this.#key}`, "", "",
    ].join("\r\n")
  }

  #read(piece) {
    this.#bytes = Buffer.concat([this.#bytes, piece])
    if (!this.#isOpen && !this.#readHead()) return
    for (let frame = firstFrame(this.#bytes); frame !== null; frame = firstFrame(this.#bytes)) {
      this.#bytes = this.#bytes.subarray(frame.size)
      if (frame.opcode === TEXT) this.onmessage({ data: frame.payload.toString() })
    }
  }

  #readHead() {
    const end = this.#bytes.indexOf("\r\n\r\n")
    if (end < 0) return false
    const head = this.#bytes.subarray(0, end).toString()
    const accepted = createHash("sha1").update(this.#key + SUFFIX).digest("base64")
    if (!head.startsWith("HTTP/1.1 101 ") || !head.includes(accepted)) {
      this.onerror(this.isSilent ? {} : answerOf(head))
      this.socket.destroy()
      return false
    }
    this.#bytes = this.#bytes.subarray(end + 4)
    this.#isOpen = true
    this.onopen({})
    return true
  }
}
