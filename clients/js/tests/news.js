/**
 * Measures how soon news arrives: milliseconds from the reply to one client's change to the `change` event of each
 * other client. An event may come before the reply: then they are below 0. Also measures how many pairs of changes of
 * one attribute, within 100 ms of each other, make two versions, and what waiting costs the server. All clients are in
 * this process, beside the server's.
 *
 * The first argument is the number of clients (30), the second that of changes (300). A third, `at-once` or `held`,
 * puts a proxy before the server, which has waits answered at once or holds them itself.
 */

import { readFileSync } from "node:fs"
import { numbersFrom } from "./checks.js"
import { Server, build } from "./program.js"
import { AT_ONCE, HELD, LEFT, Proxy } from "./proxy.js"
import { agree, enter } from "./rooms.js"
import { WebSocket } from "./websocket.js"

const PAIRS = 30
const APART_MILLISECONDS = 100
const SECONDS = 10
// Linux counts a process's processor time in this many ticks a second.
const TICKS = 100

const sleep = (milliseconds) => new Promise((resolve) => setTimeout(resolve, milliseconds))
const draw = numbersFrom(1)
// The random pause between a person's changes.
const pause = () => sleep(100 + draw(200))

let waits = 0

/** A socket that counts waits. */
class Counting extends WebSocket {
  send(text) {
    if (text.startsWith('["wait"')) waits += 1
    super.send(text)
  }
}

/** Returns the time of the next change that a room shows. */
const nextNews = (room) => new Promise((resolve) => {
  const end = room.on("change", () => {
    end()
    resolve(performance.now())
  })
})

/** Returns the sorted delays from the reply to a change until each other client shows it. */
async function delaysOf(changes, author, ...others) {
  const made = author.create("rect")
  await agree(author, ...others)
  const delays = []
  for (let x = 0; x < changes; x++) {
    await pause()
    const arrivals = others.map(nextNews)
    await author.set(made.name, [], "x", x).done
    const replied = performance.now()
    delays.push(...(await Promise.all(arrivals)).map((time) => time - replied))
  }
  return delays.sort((one, next) => one - next)
}

/** Returns how many of the pairs made two versions. */
async function conflicts(first, second) {
  let count = 0
  for (let pair = 0; pair < PAIRS; pair++) {
    const { name } = first.create("rect")
    await agree(first, second)
    await pause()
    first.set(name, [], "x", 1)
    await sleep((APART_MILLISECONDS * (pair + 0.5)) / PAIRS)
    second.set(name, second.versions(name)[0], "x", 2)
    await agree(first, second)
    if (first.versions(name).length > 1) count += 1
  }
  return count
}

/** Returns the processor time of a process so far, in seconds. */
function processorTime(pid) {
  const fields = readFileSync(`/proc/${pid}/stat`, "utf8").split(") ")[1].split(" ")
  return (Number(fields[11]) + Number(fields[12])) / TICKS
}

/** Measures the waits a second of many clients, and the share of a processor that the server needs for them. */
async function cost(server, author, rooms) {
  const before = [waits, processorTime(server.program.pid)]
  for (let second = 0; second < SECONDS; second++) {
    author?.create("rect")
    await sleep(1000)
  }
  const passed = [waits - before[0], processorTime(server.program.pid) - before[1]]
  const part = (100 * passed[1]) / SECONDS
  const [each, all] = [passed[0] / SECONDS / rooms.length, Math.round(passed[0] / SECONDS)]
  const share = `${part.toFixed(1)} % of a processor`
  return `${rooms.length} clients send ${all} waits a second, ${each.toFixed(1)} each: ${share}`
}

async function measure(server, rooms, changes) {
  const delays = await delaysOf(changes, ...rooms)
  const part = (share) => `${delays[Math.floor(share * delays.length)].toFixed(1)} ms`
  const heads = `${changes} changes, ${rooms.length} clients`
  console.log(`${heads}: median ${part(0.5)}, 90% within ${part(0.9)}, 99% within ${part(0.99)}`)
  console.log(`${PAIRS} pairs within ${APART_MILLISECONDS} ms: ${await conflicts(...rooms)} made two versions`)
  console.log(`a change a second: ${await cost(server, rooms[0], rooms)}`)
  await sleep(5000)
  console.log(`no change for 5 seconds: ${await cost(server, null, rooms)}`)
}

build()
const [clients = 30, changes = 300] = process.argv.slice(2, 4).map(Number)
const server = await Server.start()
const proxy = await Proxy.start(server.port)
proxy.waits = { "at-once": AT_ONCE, held: HELD }[process.argv[4]] ?? LEFT
const address = proxy.waits === LEFT ? server.address : proxy.address
const rooms = []
try {
  while (rooms.length < clients) rooms.push(await enter(address, { connect: (it) => new Counting(it) }))
  await measure(server, rooms, changes)
} finally {
  rooms.forEach((room) => room.close())
  proxy.end()
  await server.end()
}
