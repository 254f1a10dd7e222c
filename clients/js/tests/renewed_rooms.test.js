/** Clients of rooms that the program renews, at a start or when it opens them on demand. They go on in the next one. */

import assert from "node:assert/strict"
import test from "node:test"
import { mkdtempSync, rmSync, writeFileSync } from "node:fs"
import { tmpdir } from "node:os"
import { join } from "node:path"
import { writeText } from "../grace.js"
import { LIMIT, waitUntil } from "./checks.js"
import { Server, freePort } from "./program.js"
import { CUT_AFTER, CUT_BEFORE, PASS, Proxy } from "./proxy.js"
import { agree, enter, versionsOf } from "./rooms.js"
import { Storage } from "./storage.js"

// A room is nearly full at this number of joins.
const JOINS = 231
// The room is on the command line, or the server opens it on demand.
const AT_A_START = { rooms: ["r"], options: [] }
const ON_DEMAND = { rooms: [], options: ["--rooms", "3"] }

/** Returns the file of a room with this many joins. It draws a rectangle and a line. */
function recordOf(joins) {
  const entries = Array.from({ length: joins }, (_, place) => ["join", place + 1])
  entries.push(
    ["new", [1, 1], [], "line", []], ["drop", [1, 2], [[1, 1]], [1, 1], []],
    ["new", [1, 3], [[1, 2]], "rect", [["x", 0]]], ["new", [1, 4], [[1, 3]], "line", [["x", 0]]],
  )
  return entries.map((entry) => `${writeText(entry)}\n`).join("")
}

/**
 * Runs a test with a server of a room with this many joins, a proxy before it, and a function that opens a client. The
 * server keeps its port and its folder: `end` and `listen` start it again.
 */
const withRoom = (joins, { rooms, options }, run) => async () => {
  const folder = mkdtempSync(join(tmpdir(), "rooms-"))
  writeFileSync(join(folder, "r.record"), recordOf(joins))
  const server = Object.assign(new Server(), { rooms, options: ["--keep", folder, ...options], port: await freePort() })
  const proxy = await Proxy.start(server.port)
  const clients = []
  const client = async ({ address }, further) => {
    const news = []
    const connecting = (room) => {
      clients.push(room)
      for (const event of ["renewed", "reset", "refusal"]) room.on(event, (it) => news.push([event, it]))
    }
    return Object.assign(await enter(address, { connecting, ...further }), { news })
  }
  try {
    await server.listen(0)
    await run(client, proxy, server)
  } finally {
    clients.forEach((room) => room.close())
    proxy.end()
    await server.end()
    rmSync(folder, { recursive: true })
  }
}

/** The proxy cuts the next put in this way. It lets nothing through after that. */
function cutOff(proxy, what) {
  proxy.whatToDo = (text) => {
    if (!text.startsWith('["put"')) return PASS
    proxy.whatToDo = () => CUT_BEFORE
    return what
  }
}

const shown = (room) => room.objects().map((name) => [room.kind(name), versionsOf(room, name)])

/** The news that the drawing goes on in the second room. */
const goesOn = (copies = []) =>
  ["renewed", { oldRoom: "r", newRoom: "r.2", words: "This drawing goes on in another room.", copies, text: null }]

/**
 * The server is killed and started again while one client is cut off. Both go on in the next room by themselves. No
 * change is lost, and none is made twice.
 */
const startedAgain = (what) => async (client, proxy, server) => {
  const [room, other] = [await client(proxy), await client(server)]
  const [, rect, line] = room.objects()
  cutOff(proxy, what)
  const changes = [room.put(line, [], { y: 7 })]
  await waitUntil("the change is cut", () => proxy.cuts > 0)
  if (what === CUT_AFTER) await waitUntil("the server has the change", () => other.record.at(-1)[0] === "put")
  changes.push(room.put(rect, [], { x: 5 }), room.create("rect", { x: 7 }))
  await other.put(rect, [], { x: 9 }).done
  await server.end()
  changes.push(other.put(line, [], { fill: "red" }))
  await server.listen(0)
  await waitUntil("the other is in the next room", () => other.name === "r.2" && other.state === "open")
  proxy.whatToDo = () => PASS
  await Promise.all(changes.map(({ done }) => done))
  await agree(room, other)
  assert.deepEqual([room, other].map(({ name, site }) => [name, site]), [["r.2", 3], ["r.2", 2]], "where they are")
  assert.deepEqual(shown(room), [
    ["rect", [[[], [["x", 9]]]]], ["line", [[[], [["fill", "red"], ["x", 0], ["y", 7]]]]],
    ["rect", [[[], [["x", 5]]]]], ["rect", [[[], [["x", 7]]]]],
  ], "what is shown")
  const late = await client(server)
  await agree(room, other, late)
  assert.deepEqual([late.name, late.site], ["r.2", 4], "where a late client is")
  for (const it of [other, late]) {
    assert.deepEqual([it.record, shown(it)], [room.record, shown(room)], "what another shows")
  }
  assert.deepEqual(
    [room, other, late].map(({ news }) => news), [[goesOn([[[1, 1], [3, 1]]])], [goesOn()], []], "the news",
  )
}

/** A room is renewed while two clients draw. Both go on, and nothing is lost or refused. */
async function inUse(client, proxy, server) {
  const clients = [await client(server), await client(server)]
  let number = 0
  while (clients.some(({ name }) => name === "r") && number < 100) {
    number++
    for (const [place, room] of clients.entries()) {
      await room.put(room.objects().at(place - 2), [], { x: number }).done
    }
  }
  await agree(...clients)
  const both = [["rect", [[[], [["x", number]]]]], ["line", [[[], [["x", number]]]]]]
  assert.deepEqual(clients.map(shown), [both, both], "what both show")
  assert.deepEqual(clients.map(({ news }) => news), [[goesOn()], [goesOn()]], "the news")
}

/** A client that comes after the renewal is sent on to the next room. It comes back to that, also after a start. */
async function late(client, proxy, server) {
  const asked = []
  proxy.whatToDo = (text) => {
    if (/^."(join|back)"/.test(text)) asked.push(text)
    return PASS
  }
  const room = await client(proxy)
  const made = room.create("rect", { x: 7 })
  await made.done
  proxy.cut()
  await waitUntil("it connects again", () => proxy.heads.length === 2)
  await room.put(made.object, [], { x: 8 }).done
  await server.end()
  await server.listen(0)
  await room.put(made.object, [], { y: 9 }).done
  await agree(room)
  assert.deepEqual([...new Set(asked)], ['["join","r"]', '["join","r.2"]', '["back","r.2",2]'], "how it entered")
  assert.deepEqual(shown(room), [
    ["rect", [[[], [["x", 0]]]]], ["line", [[[], [["x", 0]]]]], ["rect", [[[], [["x", 8], ["y", 9]]]]],
  ], "what it shows")
  assert.deepEqual(room.news, [], "the news")
}

/** A page that is reloaded after the renewal reads the end of its room, and takes along what it had not sent. */
test("renewed at a start, and reloaded", LIMIT, withRoom(JOINS - 2, AT_A_START, async (client, proxy, server) => {
  const storage = new Storage()
  const first = await client(proxy, { storage })
  // With its join the room is nearly full. The server looks again after eight entries, or at a start.
  const other = await client(server)
  other.close()
  const [, rect] = first.objects()
  cutOff(proxy, CUT_BEFORE)
  first.put(rect, [], { x: 5 })
  await waitUntil("the change is cut", () => proxy.cuts > 0)
  first.close()
  await server.end()
  await server.listen(0)
  proxy.whatToDo = () => PASS
  const second = await client(proxy, { storage })
  await agree(second)
  assert.deepEqual([second.name, second.site, second.news], ["r.2", 2, [goesOn()]], "where it is")
  assert.deepEqual(shown(second), [["rect", [[[], [["x", 5]]]]], ["line", [[[], [["x", 0]]]]]], "what it shows")
}))

for (const [how, place] of [["at a start", AT_A_START], ["on demand", ON_DEMAND]]) {
  test(`renewed ${how}, with a change that it lacks`, LIMIT, withRoom(JOINS - 2, place, startedAgain(CUT_BEFORE)))
  test(`renewed ${how}, with a change that it has`, LIMIT, withRoom(JOINS - 2, place, startedAgain(CUT_AFTER)))
  test(`renewed ${how}, while they draw`, LIMIT, withRoom(JOINS - 2, place, inUse))
  test(`renewed ${how}, before it came`, LIMIT, withRoom(JOINS, place, late))
}
