/** How a client loads a record: with several pulls in flight, over a line with a long round trip too. */

import assert from "node:assert/strict"
import test from "node:test"
import { loadAll } from "../loading.js"
import { LIMIT } from "./checks.js"
import { fill } from "./full_rooms.js"
import { PASS, Proxy } from "./proxy.js"
import { agree, enter, withServer } from "./rooms.js"

// A record has at most 64 entries on a page, so this one has 41 pages.
const ENTRIES = 2600
const OBJECTS = 2000
const ROUND_TRIP_MILLISECONDS = 100
const MOST_PULLS = 32

/** Over a line of 100 ms a client loads a record with 32 pulls in flight, and has each entry once and in order. */
test("loading over a slow line", LIMIT, withServer(async (client, server) => {
  const direct = await client()
  await fill(server.address, ENTRIES, OBJECTS)
  const proxy = await Proxy.start(server.port)
  proxy.roundTripMilliseconds = ROUND_TRIP_MILLISECONDS
  let [pulls, pages, most] = [0, 0, 0]
  proxy.whatToDo = (text) => {
    if (text.startsWith('["pull"')) pulls += 1
    most = Math.max(most, pulls - pages)
    return PASS
  }
  const hear = proxy.hear.bind(proxy)
  proxy.hear = (text) => {
    pages += text.split('["entries",').length - 1
    hear(text)
  }
  const room = await enter(proxy.address)
  await agree(direct, room)
  assert.deepEqual(room.record, direct.record, "the record")
  assert.equal(room.record.length, ENTRIES + 3, "its length")
  assert.deepEqual(room.objects(), direct.objects(), "the objects")
  assert.deepEqual(most, MOST_PULLS, "the most pulls that the server had not answered")
  room.close()
  proxy.end()
}))

/** The round trips in which a client loads a record of this many entries. In each, all pulls that were sent arrive. */
async function roundTripsFor(length) {
  let [have, trips, outstanding] = [0, 0, []]
  const arrive = () => {
    trips += 1
    outstanding.splice(0).forEach((tell) => tell())
  }
  const pull = async (from) => {
    const arrival = new Promise((tell) => outstanding.push(tell))
    if (outstanding.length === 1) setTimeout(arrive)
    await arrival
    return Array(Math.min(64, length - from)).fill("")
  }
  await loadAll({ progress: () => ({ have, of: length }), pull, take: (entries) => (have += entries.length) })
  assert.deepEqual(have, length, "what is loaded")
  return trips
}

/** A nearly full record takes few round trips: 25 of 100 ms leave half a second of 3 s. */
test("the round trips of a nearly full record", LIMIT, async (t) => {
  const trips = await roundTripsFor(16200)
  assert.ok(trips <= 25, `it took ${trips} round trips`)
  t.diagnostic(`${trips} round trips`)
})

/** Loads a record from a server of pages of this length, where a further entry is there after each page. */
async function loadFrom(pageLength, length, more) {
  const server = Array.from({ length }, (_, place) => place)
  const record = []
  const asked = []
  let of = length
  await loadAll({
    progress: () => ({ have: record.length, of }),
    pull: async (from) => {
      asked.push(from)
      if (server.length < length + more) server.push(server.length)
      const page = server.slice(from, from + pageLength)
      await null
      of = server.length
      return page
    },
    take: (entries) => record.push(...entries),
  })
  assert.deepEqual(record, server, `the record by pages of ${pageLength}`)
  return asked.length
}

/** The order holds for any length of the server's pages, also while the record grows. */
test("pages of any length", LIMIT, async () => {
  for (const length of [0, 1, 63, 64, 65, 128, 1000, 5000]) {
    for (const pageLength of [1, 10, 63, 64, 65, 200]) await loadFrom(pageLength, length, 70)
  }
  assert.equal(await loadFrom(64, 6400, 0), 100, "the pulls for pages of 64")
  // After the first page the client knows the length of the others.
  assert.equal(await loadFrom(10, 1000, 0), 16 + 99, "the pulls for pages of 10")
})

/** A failed pull ends the loading, and the pulls behind it are no uncaught errors. */
test("a pull that fails", LIMIT, async () => {
  const pull = async (from) => {
    if (from >= 128) throw new Error(`no page ${from}`)
    return Array(64).fill(from)
  }
  const record = []
  const loaded = { progress: () => ({ have: record.length, of: 1000 }), pull, take: (some) => record.push(...some) }
  const words = await loadAll(loaded).catch(({ message }) => message)
  assert.deepEqual([words, record.length], ["no page 128", 128], "what failed, and what is loaded")
})
