/** A renewing server behind a port, for clients that open real WebSockets. */

import { createHash } from "node:crypto"
import { createServer } from "node:net"
import { RenewingServer } from "./renewing_server.js"
import { firstFrame } from "./websocket.js"

const SUFFIX = "258EAFA5-E914-47DA-95CA-C5AB0DC85B11"
const TEXT = 1
const CLOSE = 8

/** Returns a frame of a server. */
function frameOf(opcode, payload) {
  const { length } = payload
  const head = Buffer.alloc(length < 126 ? 2 : 4)
  head[0] = 128 | opcode
  head[1] = length < 126 ? length : 126
  if (length >= 126) head.writeUInt16BE(length, 2)
  return Buffer.concat([head, payload])
}

/** Returns the payload of a client's frame without its mask. */
function unmasked(bytes, { payload, size }) {
  const key = bytes.subarray(size - payload.length - 4, size - payload.length)
  return Buffer.from(payload.map((byte, place) => byte ^ key[place % 4]))
}

/** Passes the messages of a client to a session of the server, and its replies back. */
class Line {
  #bytes = Buffer.alloc(0)
  #session = null

  constructor(client, server) {
    this.client = client
    this.server = server
    client.on("data", (piece) => this.#take(piece))
    client.on("error", () => {})
    client.on("close", () => this.#session?.close())
  }

  #take(piece) {
    this.#bytes = Buffer.concat([this.#bytes, piece])
    if (this.#session === null) this.#shakeHands()
    const next = () => (this.#session === null ? null : firstFrame(this.#bytes))
    for (let frame = next(); frame !== null; frame = next()) {
      const payload = unmasked(this.#bytes, frame)
      this.#bytes = this.#bytes.subarray(frame.size)
      if (frame.opcode === CLOSE) this.client.end(frameOf(CLOSE, payload))
      else this.#session.send(payload.toString())
    }
  }

  #shakeHands() {
    const head = /^([^]*?\r\n)\r\n/.exec(this.#bytes.toString("latin1"))
    if (head === null) return
    this.#bytes = this.#bytes.subarray(head[0].length)
    const [, key] = /\r\nsec-websocket-key: *(\S+)/i.exec(head[1])
    const accepted = createHash("sha1").update(key + SUFFIX).digest("base64")
    this.client.write("HTTP/1.1 101 Switching Protocols\r\nUpgrade: websocket\r\nConnection: Upgrade\r\n" +
      `Sec-WebSocket-Accept: ${accepted}\r\n\r\n`)
    this.#session = this.server.connect()
    Object.assign(this.#session, {
      onopen: () => {},
      onmessage: ({ data }) => this.client.write(frameOf(TEXT, Buffer.from(data))),
      onclose: () => this.client.destroy(),
    })
  }
}

/** Starts a server, with the room `r`. Returns it with its address, and with `close`. */
export async function startRenewingServer() {
  const server = new RenewingServer()
  const listener = createServer((client) => (server.isDown ? client.destroy() : new Line(client, server)))
  await new Promise((tell) => listener.listen(0, "127.0.0.1", tell))
  const close = () => {
    server.cut()
    listener.close()
  }
  return { server, address: `ws://127.0.0.1:${listener.address().port}/`, close }
}
