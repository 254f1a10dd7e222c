/**
 * How long a client takes to load a nearly full record over a line with a round trip of 100 ms: prints the seconds of
 * three loads. The relay delays each message by half a round trip, and does not limit the bytes.
 */

import { fill } from "./full_rooms.js"
import { Server, build } from "./program.js"
import { Proxy } from "./proxy.js"
import { enter } from "./rooms.js"

const OPERATIONS = 16199
const OBJECTS = 8000
const ROUND_TRIP_MILLISECONDS = 100
const TIMES = 3

build()
const server = await Server.start()
await fill(server.address, OPERATIONS, OBJECTS)
const proxy = await Proxy.start(server.port)
proxy.roundTripMilliseconds = ROUND_TRIP_MILLISECONDS
for (let time = 0; time < TIMES; time++) {
  const start = performance.now()
  const room = await enter(proxy.address)
  const seconds = (performance.now() - start) / 1000
  console.log(`${room.record.length} entries in ${seconds.toFixed(2)} s`)
  room.close()
}
proxy.end()
await server.end()
