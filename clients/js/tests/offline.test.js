/** What a client says of a server that does not answer, where the platform knows that there is no network. */

import test from "node:test"
import { createServer } from "node:net"
import { Room } from "../grace.js"
import { LIMIT, waitUntil } from "./checks.js"
import { WebSocket } from "./websocket.js"

const NO_NETWORK = "This device has no network. It goes on when there is one again."
const NO_ANSWER = "The server is not answering. All its places may be taken. Please wait."

/** A browser says by `navigator.onLine` whether there is a network. The words follow it while the server is silent. */
test("a server that does not answer, and a lost network", LIMIT, async () => {
  const server = createServer(() => {})
  await new Promise((tell) => server.listen(0, "127.0.0.1", tell))
  const before = Object.getOwnPropertyDescriptor(globalThis, "navigator")
  const navigator = { onLine: false }
  Object.defineProperty(globalThis, "navigator", { value: navigator, configurable: true })
  const connect = (address) => new WebSocket(address)
  const room = new Room(`ws://127.0.0.1:${server.address().port}/`, "r", { connect })
  try {
    await waitUntil(NO_NETWORK, () => room.words === NO_NETWORK)
    navigator.onLine = true
    await waitUntil(NO_ANSWER, () => room.words === NO_ANSWER)
  } finally {
    room.close()
    server.close()
    if (before === undefined) delete globalThis.navigator
    else Object.defineProperty(globalThis, "navigator", before)
  }
})
