/** Fills a room by one raw connection. */

import { WebSocket } from "./websocket.js"

/** The request of the operation with this number: it creates an object, or puts to one of them in turn. */
function requestOf(number, site, objects) {
  const seen = number === 1 ? [] : [[site, number - 1]]
  if (number <= objects) return ["new", number, seen, "rect", [["x", number], ["y", 7]]]
  return ["put", number, seen, [site, ((number - 1) % objects) + 1], [], [["x", number]]]
}

/**
 * Joins the room `r` as a new site, and makes this many operations without waiting for the replies.
 * @param {string} address of the server: host and port
 * @param {number} operations
 * @param {number} objects how many of the operations are creations
 */
export async function fill(address, operations, objects) {
  const socket = new WebSocket(`ws://${address}/`)
  await new Promise((tell) => (socket.onopen = tell))
  let site
  let left = operations + 1
  await new Promise((tell, fail) => {
    socket.onmessage = ({ data }) => {
      const [word, , joined] = JSON.parse(data)
      left -= 1
      if (word === "no") fail(new Error(`The server answered ${data}.`))
      if (left === 0) tell()
      if (word !== "joined") return
      site = joined
      for (let number = 1; number <= operations; number++) {
        socket.send(JSON.stringify(requestOf(number, site, objects)))
      }
    }
    socket.send('["join","r"]')
  })
  socket.close()
}
