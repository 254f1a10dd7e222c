/** Clients in rooms of `grace serve`, with a proxy before it or without. */

import { Room } from "../grace.js"
import { shownVersion, waitUntil } from "./checks.js"
import { Server } from "./program.js"
import { Proxy } from "./proxy.js"
import { WebSocket } from "./websocket.js"

export const OPTIONS = { connect: (address) => new WebSocket(address), retryMilliseconds: [10, 20, 50] }

/** Opens a client of the room and records its refusals. Calls `connecting` with it before it connects. */
export async function enter(address, { connecting = () => {}, ...options } = {}) {
  const room = new Room(`ws://${address}/`, "r", { ...OPTIONS, ...options })
  connecting(room)
  room.refused = []
  room.on("refusal", ({ refusal }) => room.refused.push(refusal.word))
  await waitUntil("a client is in the room", () => room.state === "open")
  return room
}

/** Returns the versions of an object: each identifier with the attributes, or "gone". */
export const versionsOf = (room, object) => room.versions(object).map(shownVersion)

/** Runs a test with what opens a client, with a server, and ends them in any case. The last argument is the context. */
export function withServer(run) {
  return async (context) => {
    const server = await Server.start()
    const rooms = []
    const client = async (options) => {
      const room = await enter(server.address, options)
      rooms.push(room)
      return room
    }
    try {
      await run(client, server, context)
    } finally {
      rooms.forEach((room) => room.close())
      await server.end()
    }
  }
}

/** Waits until all clients show all changes of the others. */
export async function agree(...rooms) {
  for (const room of rooms) await room.settled()
  const length = () => Math.max(...rooms.map(({ record }) => record.length))
  await waitUntil("all have the record", () => rooms.every(({ record }) => record.length === length()))
  // Look once more, in case no client had pulled an entry yet.
  await new Promise((resolve) => setTimeout(resolve, 100))
  const isCurrent = ({ record, hasNews }) => record.length === length() && !hasNews
  await waitUntil("all have the record", () => rooms.every(isCurrent))
}

/**
 * Runs a test with a proxy before a server, a client through it, one that connects directly, and the server. The last
 * argument is the context.
 */
export function withProxy(run) {
  return async (context) => {
    const server = await Server.start()
    const proxy = await Proxy.start(server.port)
    const rooms = []
    try {
      for (const address of [proxy.address, server.address]) {
        rooms.push(await enter(address))
      }
      await run(proxy, ...rooms, server, context)
    } finally {
      rooms.forEach((room) => room.close())
      proxy.end()
      await server.end()
    }
  }
}

export const operations = ({ record }) => record.filter(([word]) => word !== "join")
export const sitesOf = ({ record }) => record.filter(([word]) => word === "join").map(([, site]) => site)
