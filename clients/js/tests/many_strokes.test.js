/** A person draws for so long that the room is renewed, as it had too many objects in all. */

import assert from "node:assert/strict"
import test from "node:test"
import { mkdtempSync, rmSync } from "node:fs"
import { tmpdir } from "node:os"
import { join } from "node:path"
import { LIMIT } from "./checks.js"
import { Server, freePort } from "./program.js"
import { agree, enter, versionsOf } from "./rooms.js"

const STROKES = 5000
const DELETED = 4000
// A person goes on to draw before the server has answered the last strokes. A stroke has so many points.
const IN_FLIGHT = 100
const POINTS = 20
// Of so many strokes that follow each other, all but the last are deleted.
const KEPT_OF = STROKES / (STROKES - DELETED)
const isKept = (number) => number >= STROKES || (number + 1) % KEPT_OF === 0

/** Returns what the page of examples/whiteboard stores for a stroke of the pen. Each number gives another one. */
function strokeOf(number) {
  const points = Array.from({ length: POINTS }, (_, place) => `${4 * place},${(number + place * place) % 97}`)
  const box = { x: 10 * (number % 400), y: 25 * Math.trunc(number / 400), width: 4 * (POINTS - 1), height: 96 }
  return { ...box, fill: "#204a87", "points-0": points.join(" ") }
}

/** Makes a change for each of these, and waits for the answers some changes later. */
async function inFlight(items, change) {
  const made = []
  for (const [place, item] of items.entries()) {
    if (place >= IN_FLIGHT) await made[place - IN_FLIGHT].done
    made.push(change(item))
  }
  await Promise.all(made.map(({ done }) => done))
  return made
}

/** Draws so many strokes, from this number on. Returns the changes. */
const draw = (room, first) =>
  inFlight(Array.from({ length: STROKES }, (_, place) => strokeOf(first + place)), (it) => room.create("pen", it))

/** Returns the strokes that a client shows, in order: kind and versions. */
const shown = (room) =>
  room.objects().map((name) => [room.kind(name), versionsOf(room, name)])
    .filter(([, versions]) => versions.some(([, attributes]) => attributes !== "gone"))

/** Runs a test with a server that opens rooms on demand, and a function that opens a client of one. */
const withServer = (run) => async () => {
  const folder = mkdtempSync(join(tmpdir(), "rooms-"))
  const server = Object.assign(new Server(), {
    rooms: [], options: ["--keep", folder, "--rooms", "3"], port: await freePort(),
  })
  const clients = []
  const client = async () => {
    const renewed = []
    const connecting = (room) => room.on("renewed", ({ oldRoom, newRoom }) => renewed.push([oldRoom, newRoom]))
    clients.push(Object.assign(await enter(server.address, { connecting }), { renewed }))
    return clients.at(-1)
  }
  try {
    await server.listen(0)
    await run(client)
  } finally {
    clients.forEach((room) => room.close())
    await server.end()
    rmSync(folder, { recursive: true })
  }
}

/** A person draws 5,000 strokes, deletes 4,000 of them and draws 5,000 more. Nothing is refused, and none is lost. */
test("5,000 strokes, 4,000 of them deleted, and 5,000 more", LIMIT, withServer(async (client) => {
  const room = await client()
  const strokes = await draw(room, 0)
  await inFlight(strokes.filter((_, number) => !isKept(number)), ({ object, version }) => room.drop(object, version))
  assert.deepEqual([room.name, shown(room).length], ["r", STROKES - DELETED], "where it is when it has deleted them")
  await draw(room, STROKES)
  const late = await client()
  await agree(room, late)
  assert.deepEqual(
    [room.name, late.name, room.renewed, late.renewed], ["r.2", "r.2", [["r", "r.2"]], []], "where they are",
  )
  assert.deepEqual(room.refused, [], "what was refused")
  const kept = Array.from({ length: 2 * STROKES }, (_, number) => number).filter(isKept)
  const attributes = (number) => Object.entries(strokeOf(number)).sort(([one], [other]) => (one < other ? -1 : 1))
  const expected = kept.map((number) => ["pen", [[[], attributes(number)]]])
  for (const it of [room, late]) assert.deepEqual(shown(it), expected, "what is shown")
}))
