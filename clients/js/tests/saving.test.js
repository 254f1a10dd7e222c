/** How often a client saves its changes: what the storage has suffices at each moment, and many changes cost little. */

import assert from "node:assert/strict"
import test from "node:test"
import { LIMIT, waitUntil } from "./checks.js"
import { withServer } from "./rooms.js"
import { Storage } from "./storage.js"

/** A storage that counts how often changes were saved. */
class CountingStorage extends Storage {
  saved = 0

  setItem(key, text) {
    if (key.endsWith(" changes")) this.saved += 1
    super.setItem(key, text)
  }
}

const savedChanges = (storage) =>
  JSON.parse([...storage.texts].find(([key]) => key.endsWith(" changes"))?.[1] ?? "[]").length

const savedEntries = (storage) =>
  [...storage.texts].filter(([key]) => / record \d+$/.test(key)).flatMap(([, text]) => JSON.parse(text)).length

const MANY = 1000
// Replies come within this time of each other, and the last save is a tenth of a second behind the last reply.
const MOST_SAVES = 100

/** A transaction is saved whole, once. Then the replies are saved now and then, and in the end nothing is pending. */
test("many changes are saved together", LIMIT, withServer(async (client) => {
  const storage = new CountingStorage()
  const room = await client({ storage })
  storage.saved = 0
  room.transaction(() => Array.from({ length: MANY }, (_, number) => room.create("rect", { number })))
  assert.deepEqual([savedChanges(storage), storage.saved], [MANY, 1], "the changes, and how often they were saved")
  await room.settled()
  room.close()
  assert.equal(savedChanges(storage), 0, "what is left at the end")
  assert(storage.saved <= MOST_SAVES, `it was saved ${storage.saved} times`)
}))

/** A tab that ends before it has saved the replies continues as its site, and sends nothing twice. */
test("a tab that ends before it has saved the replies", LIMIT, withServer(async (client, server) => {
  const storage = new Storage()
  const room = await client({ storage })
  room.transaction(() => Array.from({ length: 10 }, (_, number) => room.create("rect", { number })))
  const atOnce = storage.copyFor(server.address)
  await room.settled()
  const { site } = room
  room.close()
  const again = await client({ storage: atOnce })
  await again.settled()
  assert.deepEqual([again.site, again.objects().length], [site, 10], "its site and its objects")
}))

/** To save a record while it is loaded would delay its drawing. It is saved soon, or with a change, or at the end. */
test("a record is saved when it is loaded", LIMIT, withServer(async (client) => {
  const first = await client()
  first.transaction(() => Array.from({ length: 200 }, (_, number) => first.create("rect", { number })))
  await first.settled()
  const [storage, other, later] = [new Storage(), new Storage(), new Storage()]
  const room = await client({ storage })
  assert.deepEqual([room.isLoaded, savedEntries(storage)], [true, 0], "what is saved of a record that was just loaded")
  const { length } = room.record
  room.close()
  assert(savedEntries(storage) >= length, "what is saved at the end")
  const changing = await client({ storage: other })
  changing.create("rect", {})
  assert.deepEqual([savedEntries(other), savedChanges(other)], [changing.record.length, 1], "saved with a change")
  const third = await client({ storage: later })
  await waitUntil("the record is saved", () => savedEntries(later) === third.record.length)
}))
