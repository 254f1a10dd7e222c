/** Changes of before a reload, by their names. */

import assert from "node:assert/strict"
import test from "node:test"
import { LIMIT, shownVersion } from "./checks.js"
import { agree, withServer } from "./rooms.js"
import { Storage } from "./storage.js"

/** What a client shows of a change: its object, its kind, and its version. */
const tell = ({ object, kind, version }) => [object, kind, shownVersion(version)]

/** A reloaded client finds its changes, with their versions as they were, and what has become of these. */
test("changes of before a reload", LIMIT, withServer(async (client, server) => {
  const storage = new Storage()
  const room = await client({ storage })
  const made = room.create("rect", { x: 1 })
  const moved = room.put(made.object, made.version, { x: 2 })
  const painted = room.put(made.object, moved.version, { fill: "red" })
  const other = room.create("line")
  const dropped = room.drop(other.object, other.version)
  const all = [made, moved, painted, other, dropped]
  await room.settled()
  assert.deepEqual(room.changesNamed(all.map(({ name }) => name)).map(tell), all.map(tell), "of a client that goes on")
  room.close()

  const again = await client({ storage: storage.copyFor(server.address) })
  const found = again.changesNamed([...all.map(({ name }) => name), [again.site, 99], [200, 1]])
  assert.deepEqual(found.slice(5), [null, null], "changes that are not there")
  assert.deepEqual(found.slice(0, 5).map(tell), all.map(tell), "the changes")
  const [, { object, version, base, made: when }] = found
  assert.deepEqual([base, when], [null, 0], "what is not known of them")
  assert.deepEqual(again.successors(object, version), again.versions(object), "what the version has become")
  const next = again.put(object, again.versions(object)[0], { x: 3 })
  assert.equal(again.changesNamed([next.name])[0], next, "a change that the server has not answered")
  assert.throws(() => again.changesNamed(["1,1"]), TypeError, "no name")
}))

/** The changes that conflict with those of others have their versions as before. */
test("changes of before a reload in versions", LIMIT, withServer(async (client, server) => {
  const storage = new Storage()
  const room = await client({ storage })
  const other = await client()
  const { object, version } = room.create("rect", { x: 1 })
  await agree(room, other)
  const release = room.hold()
  other.put(object, other.versions(object)[0], { x: 5 })
  await other.settled()
  const moved = room.put(object, version, { x: 9 })
  await room.settled()
  release()
  await agree(room, other)
  const own = room.successors(object, moved.version)
  assert.deepEqual([own.length, room.versions(object).length], [1, 2], "the versions")
  room.close()
  const again = await client({ storage: storage.copyFor(server.address) })
  const [found] = again.changesNamed([moved.name])
  assert.deepEqual(again.successors(object, found.version).map(shownVersion), own.map(shownVersion), "its version")
}))
