/** Clients of a room that is renewed: they go on in the next one, and no work is lost. */

import assert from "node:assert/strict"
import test from "node:test"
import { Room, UndoManager, writeText } from "../grace.js"
import { isAfter, successorOf } from "../room_names.js"
import { LIMIT, numbersFrom, waitUntil } from "./checks.js"
import { RenewingServer } from "./renewing_server.js"
import { versionsOf } from "./rooms.js"
import { Storage } from "./storage.js"

const OPTIONS = { retryMilliseconds: [5, 10] }

/** Opens a client, which records its renewals and refusals. */
function open(server, options = {}) {
  const room = new Room("ws://localhost/", "r", { ...OPTIONS, connect: server.connect, ...options })
  Object.assign(room, { renewals: [], refused: [], renamed: [] })
  room.on("renewed", (news) => room.renewals.push(news))
  room.on("refusal", ({ refusal }) => room.refused.push(refusal.word))
  room.on("change", ({ renamed }) => room.renamed.push(...renamed))
  return room
}

async function enter(server, options) {
  const room = open(server, options)
  await waitUntil("the client is in the room", () => room.state === "open")
  return room
}

/** Runs a test with a server and clients, and closes these in any case. */
const withServer = (run, entries) => async (context) => {
  const server = new RenewingServer(entries)
  const rooms = []
  const client = async (options) => {
    rooms.push(await enter(server, options))
    return rooms.at(-1)
  }
  try {
    await run(client, server, context)
  } finally {
    rooms.forEach((room) => room.close())
  }
}

const isIn = (room, name) =>
  waitUntil(`the client is in ${name}`, () => room.state === "open" && room.name === name && room.pending.length === 0)

/** Waits until clients have what the newest room has, and expects that all of them show the same as it. */
async function agree(server, ...rooms) {
  const { newest } = server
  const isCurrent = ({ name, pending, record, hasNews }) =>
    name === newest.name && pending.length === 0 && record.length === newest.record.length && !hasNews
  await waitUntil("all have the record", () => rooms.every(isCurrent))
  for (const room of rooms) {
    assert.deepEqual(room.record, newest.record, "the record")
    assert.deepEqual(room.objects(), newest.drawing.names(), "the objects")
    for (const name of room.objects()) {
      assert.deepEqual(versionsOf(room, name), versionsOf(newest.drawing, name), `object ${name}`)
    }
  }
}

const news = (oldRoom, newRoom, copies = [], text = null) =>
  ({ oldRoom, newRoom, words: "This drawing goes on in another room.", copies, text })

/** A client that only looks learns of the end by a page. Names, versions and changes that it holds go on. */
test("renewed while it looks", LIMIT, withServer(async (client, server) => {
  const [room, other] = [await client(), await client()]
  const gone = room.create("line")
  room.drop(gone.object, gone.version)
  const made = room.create("rect", { x: 0 })
  await agree(server, room, other)
  const [looked] = other.versions(made.object)
  const [object] = [made.object]
  server.renew()
  await Promise.all([isIn(room, "r.2"), isIn(other, "r.2")])
  await agree(server, room, other)
  assert.deepEqual([room.renewals, other.renewals], [[news("r", "r.2")], [news("r", "r.2")]], "the news")
  assert.deepEqual([object, other.renamed, made.object], [[1, 3], [[[1, 3], [1, 1]]], [1, 1]], "the names")
  assert.deepEqual(other.successors(made.object, looked), other.versions([1, 1]), "what became of a version")
  assert.deepEqual(room.successors(gone.object, gone.version), [], "what became of one that is gone")
  room.put(made.object, made.version, { x: 5 })
  other.put(object, looked, { y: 7 })
  await agree(server, room, other)
  assert.deepEqual(versionsOf(room, [1, 1]), [[[], [["x", 5], ["y", 7]]]], "what both show")
  const putToGone = () => room.put(gone.object, gone.version, { x: 1 })
  assert.throws(putToGone, { name: "Refused", word: "no-such-version" }, "a version that is gone")
  assert.deepEqual([room.refused, other.refused], [[], []], "the refusals")
}))

/** The room ends while a client has work that was not sent. Each change settles, and nothing is lost. */
test("renewed with unsent work", LIMIT, withServer(async (client, server) => {
  const room = await client()
  const made = room.create("rect", { x: 0 })
  const line = room.create("line", { x: 0 })
  await room.settled()
  server.before = (text) => {
    if (!text.startsWith('["put"')) return
    server.before = () => {}
    server.add(["join", 2])
    server.add(["put", [2, 1], [[1, 2]], [1, 2], [], [["x", 9]]])
    server.renew()
  }
  const changes = [
    room.put(made.object, [], { x: 1 }), room.put(made.object, [], { x: 2, y: 3 }), room.put(line.object, [], { x: 5 }),
  ]
  changes.push(room.create("rect", { x: 7 }))
  changes.push(room.put(changes[3].object, [], { fill: "red" }))
  await Promise.all(changes.map(({ done }) => done))
  await agree(server, room)
  const shown = room.objects().map((name) => [room.kind(name), versionsOf(room, name)])
  assert.deepEqual(shown, [
    ["rect", [[[], [["x", 2], ["y", 3]]]]], ["line", [[[], [["x", 9]]]]], ["line", [[[], [["x", 5]]]]],
    ["rect", [[[], [["fill", "red"], ["x", 7]]]]],
  ], "what is shown")
  assert.deepEqual(server.requests.filter((text) => /^."(new|put)"/.test(text)).slice(2), [
    '["put",3,[[1,2]],[1,1],[],[["x",1]]]', '["put",1,[[1,2]],[1,1],[],[["x",2],["y",3]]]',
    '["new",2,[[1,2],[2,1]],"line",[["x",5]]]',
    '["new",3,[[1,2],[2,2]],"rect",[["fill","red"],["x",7]]]',
  ], "what was sent")
  assert.deepEqual(room.renewals, [news("r", "r.2", [[[1, 2], [2, 2]]])], "the news")
  const objects = changes.map(({ object }) => object)
  assert.deepEqual(objects, [[1, 1], [1, 1], [2, 2], [2, 3], [2, 3]], "the objects of the changes")
  assert.deepEqual(room.refused, [], "the refusals")
}))

/** A client that comes later is sent on to the newest room. */
test("renewed before it came", LIMIT, withServer(async (client, server) => {
  server.add(["join", 1])
  server.add(["new", [1, 1], [], "rect", [["x", 0]]])
  server.renew()
  server.renew()
  const room = await client()
  await agree(server, room)
  const asked = server.requests.filter((text) => text.startsWith('["join"'))
  assert.deepEqual([asked, room.name], [['["join","r"]', '["join","r.3"]'], "r.3"], "what it asks")
  assert.deepEqual(room.renewals, [], "the news")
}))

/** The room goes on in a shorter one after the client has joined it, and before it has read an entry. */
test("renewed before it was read", LIMIT, withServer(async (client, server) => {
  server.add(["join", 1])
  server.add(["new", [1, 1], [], "rect", [["x", 0]]])
  for (const number of [2, 3, 4]) server.add(["put", [1, number], [[1, number - 1]], [1, 1], [], [["x", number]]])
  server.before = (text) => {
    if (!text.startsWith('["pull"')) return
    server.before = () => {}
    server.renew()
    server.cut()
  }
  await agree(server, await client())
}))

/** The room ends while the connection is lost. The client comes back to it, reads it to its end, and goes on. */
test("renewed while it was away", LIMIT, withServer(async (client, server) => {
  const room = await client()
  const made = room.create("rect", { x: 0 })
  await room.settled()
  server.cut()
  room.put(made.object, [], { x: 1 })
  server.add(["join", 2])
  server.add(["put", [2, 1], [[1, 1]], [1, 1], [], [["y", 9]]])
  server.renew()
  await isIn(room, "r.2")
  await agree(server, room)
  assert.deepEqual(versionsOf(room, [1, 1]), [[[], [["x", 1], ["y", 9]]]], "what is shown")
  const entered = server.requests.filter((text) => /^."(join|back|leave)"/.test(text))
  assert.deepEqual(entered, ['["join","r"]', '["back","r",1]', '["leave"]', '["join","r.2"]'], "how it entered")
}))

/** The next room ends too before the client is in it. The client reads it as another site, and goes on. */
test("renewed twice", LIMIT, withServer(async (client, server) => {
  const [room, other] = [await client(), await client()]
  const made = room.create("rect", { x: 0 })
  const line = room.create("line", { x: 0 })
  await agree(server, room, other)
  other.close()
  server.cut()
  room.put(made.object, [], { x: 1 })
  room.put(line.object, [], { x: 2 })
  const added = room.create("rect", { x: 3 })
  server.renew()
  server.before = (text) => {
    if (text !== '["join","r.2"]') return
    server.before = () => {}
    server.add(["join", 2])
    server.add(["put", [2, 1], [[1, 2]], [1, 2], [], [["x", 9]]])
    server.renew()
  }
  await isIn(room, "r.3")
  await agree(server, room)
  const shown = room.objects().map((name) => [room.kind(name), versionsOf(room, name)])
  assert.deepEqual(shown, [
    ["rect", [[[], [["x", 1]]]]], ["line", [[[], [["x", 9]]]]], ["line", [[[], [["x", 2]]]]],
    ["rect", [[[], [["x", 3]]]]],
  ], "what is shown")
  assert.deepEqual(room.renewals, [news("r", "r.2"), news("r.2", "r.3", [[[1, 2], [2, 2]]])], "the news")
  assert.deepEqual(
    [added.object, versionsOf(room, added.object)], [[2, 3], [[[], [["x", 3]]]]], "a change that it holds",
  )
  const entered = server.requests.filter((text) => /^."(join|back)"/.test(text)).slice(-4)
  assert.deepEqual(
    entered, ['["back","r",1]', '["join","r.2"]', '["back","r.2",1]', '["join","r.3"]'], "how it entered",
  )
}))

/** The old room can no longer be read. The client tells what it could not take along, and enters the newest one. */
test("renewed, and the old room is closed", LIMIT, withServer(async (client, server) => {
  const room = await client()
  const made = room.create("rect", { x: 0 })
  await agree(server, room)
  server.cut()
  const put = room.put(made.object, [], { x: 1 })
  server.renew()
  server.renew()
  await isIn(room, "r.3")
  await agree(server, room)
  const lines = ['["join",1]', '["new",[1,1],[],"rect",[["x",0]]]', '["put",[1,2],[[1,1]],[1,1],[],[["x",1]]]', ""]
  const words = "This drawing went on in another room without your last changes. You can save a copy of them."
  assert.deepEqual(
    room.renewals, [{ oldRoom: "r", newRoom: "r.3", words, copies: [], text: lines.join("\n") }], "the news",
  )
  assert.deepEqual([room.refused, await put.done.catch(({ word }) => word)], [["renewed"], "renewed"], "the refusals")
  assert.deepEqual(versionsOf(room, [1, 1]), [[[], [["x", 0]]]], "what is shown")
  server.cut()
  server.renew()
  server.renew()
  await isIn(room, "r.5")
  assert.deepEqual(room.renewals.at(-1), news("r.3", "r.5"), "the news with nothing to take along")
}))

/** While there is a hold, the client stays in the old room. What it draws then goes along when the hold is released. */
test("renewed during a hold", LIMIT, withServer(async (client, server) => {
  const room = await client()
  const made = room.create("rect", { x: 0 })
  await agree(server, room)
  const release = room.hold()
  server.add(["join", 2])
  server.add(["put", [2, 1], [[1, 1]], [1, 1], [], [["x", 9]]])
  server.renew()
  await waitUntil("the end", () => room.hasEnded)
  const put = room.put(made.object, made.version, { x: 5 })
  await waitUntil("the client has left", () => server.sessions.values().next().value.room === null)
  assert.deepEqual([room.name, versionsOf(room, [1, 1])], ["r", [[[], [["x", 5]]]]], "what is shown meanwhile")
  release()
  await put.done
  await agree(server, room)
  const shown = room.objects().map((name) => versionsOf(room, name))
  assert.deepEqual(shown, [[[[], [["x", 9]]]], [[[], [["x", 5]]]]], "what is shown then")
  assert.deepEqual(room.renewals, [news("r", "r.2", [[[1, 1], [2, 1]]])], "the news")
  assert.deepEqual(put.object, [2, 1], "the object of the change")
}))

/** A put by an earlier state vector and a version of the old room conflicts with what others changed since. */
test("renewed during a put by an earlier state vector", LIMIT, withServer(async (client, server) => {
  const room = await client()
  const made = room.create("rect", { x: 0 })
  await agree(server, room)
  const [{ seen }, [looked]] = [room, room.versions(made.object)]
  server.renew()
  await isIn(room, "r.2")
  server.add(["join", 3])
  server.add(["put", [3, 1], [[1, 1]], [1, 1], [], [["x", 9]]])
  await agree(server, room)
  room.put(made.object, looked, { x: 5 }, seen)
  await agree(server, room)
  assert.deepEqual(versionsOf(room, [1, 1]), [[[[2, 1]], [["x", 5]]], [[[3, 1]], [["x", 9]]]], "what is shown")
  server.renew()
  await isIn(room, "r.3")
  assert.throws(
    () => room.put(made.object, looked, { x: 6 }, seen),
    { name: "Refused", word: "no-such-version" },
    "after two renewals",
  )
}))

/** The next room is not open yet. The client asks again. */
test("renewed, and the next room opens later", LIMIT, withServer(async (client, server) => {
  const room = await client()
  await room.create("rect").done
  const { rooms } = server
  let answers = 0
  server.before = (text) => {
    if (text !== '["join","r.2"]') return
    answers += 1
    if (answers === 1) server.rooms = new Map([["r", rooms.get("r")]])
    else server.rooms = rooms
  }
  server.renew()
  await isIn(room, "r.2")
  assert.equal(answers, 2, "the attempts")
  await agree(server, room)
}))

/** The server never opens the next room. After a while the client begins anew in the first one. */
test("renewed, and the next room is never opened", LIMIT, withServer(async (client, server) => {
  const room = await client({ backMilliseconds: 100 })
  const made = room.create("rect", { x: 0 })
  await agree(server, room)
  const resets = []
  room.on("reset", ({ text }) => resets.push(text))
  server.before = (text) => {
    if (!text.startsWith('["put"')) return
    server.before = () => {}
    server.renew()
    server.rooms = new RenewingServer().rooms
  }
  const put = room.put(made.object, [], { x: 1 })
  assert.equal(await put.done.catch(({ word }) => word), "another-room", "the refusal")
  await isIn(room, "r")
  await agree(server, room)
  const lines = ['["join",1]', '["new",[1,1],[],"rect",[["x",0]]]', '["put",[1,2],[[1,1]],[1,1],[],[["x",1]]]', ""]
  assert.deepEqual(resets, [lines.join("\n")], "the text")
}))

/** A reloaded page continues in the room that it was in, and takes along what it had not sent. */
test("renewed and reloaded", LIMIT, withServer(async (client, server) => {
  const storage = new Storage()
  const first = await client({ storage })
  const made = first.create("rect", { x: 0 })
  await agree(server, first)
  const put = first.put(made.object, [], { x: 1 })
  first.close()
  server.renew()
  const second = await client({ storage })
  await isIn(second, "r.2")
  await agree(server, second)
  assert.deepEqual([put.isSent, versionsOf(second, [1, 1])], [false, [[[], [["x", 1]]]]], "what is shown")
  second.close()
  const third = await client({ storage })
  assert.deepEqual([third.name, third.site, third.renewals], ["r.2", second.site, []], "where the third is")
  server.cut()
  third.put([1, 1], [], { x: 2 })
  third.close()
  // The page was closed when it had read the end of the room, but was in no other one.
  const open = server.rooms.get("r.2")
  server.renew()
  const [record] = [...storage.texts.keys()].filter((key) => key.endsWith("record 0"))
  storage.setItem(record, writeText(open.record))
  const fourth = await client({ storage })
  await isIn(fourth, "r.3")
  await agree(server, fourth)
  assert.deepEqual(versionsOf(fourth, [1, 1]), [[[], [["x", 2]]]], "what the fourth shows")
}))

/** Another client was in the old room as this site, and made changes. The client's own go on under another site. */
test("renewed after another used the site", LIMIT, withServer(async (client, server) => {
  const room = await client()
  const made = room.create("rect", { x: 0 })
  await agree(server, room)
  server.cut()
  room.put(made.object, [], { x: 1 })
  server.add(["put", [1, 2], [[1, 1]], [1, 1], [], [["y", 9]]])
  server.renew()
  await isIn(room, "r.2")
  await agree(server, room)
  assert.deepEqual(versionsOf(room, [1, 1]), [[[], [["x", 1], ["y", 9]]]], "what is shown")
}))

/** The site is still in use, and the room has ended. The client reads it as another site. */
test("renewed while the site is in use", LIMIT, withServer(async (client, server) => {
  const room = await client({ backMilliseconds: 100 })
  const other = await client()
  const made = room.create("rect", { x: 0 })
  await agree(server, room, other)
  other.close()
  server.cut()
  server.newest.sites.add(1)
  room.put(made.object, [], { x: 1 })
  server.renew()
  await isIn(room, "r.2")
  await agree(server, room)
  assert.deepEqual(versionsOf(room, [1, 1]), [[[], [["x", 1]]]], "what is shown")
  const entered = server.requests.filter((text) => /^."(join|back)"/.test(text)).slice(-4)
  assert.deepEqual(entered, ['["join","r"]', '["back","r",1]', '["back","r",2]', '["join","r.2"]'], "how it entered")
}))

/** The next room draws something else. The client leaves its work behind, as it cannot tell what corresponds. */
test("renewed as something else", LIMIT, withServer(async (client, server) => {
  const room = await client()
  const made = room.create("rect", { x: 0 })
  await agree(server, room)
  server.before = (text) => {
    if (!text.startsWith('["put"')) return
    server.before = () => {}
    server.renew()
    server.newest.record[1] = ["new", [1, 1], [], "oval", [["x", 0]]]
  }
  const put = room.put(made.object, [], { x: 1 })
  assert.equal(await put.done.catch(({ word }) => word), "renewed", "the refusal")
  await isIn(room, "r.2")
  assert.deepEqual([room.kind([1, 1]), versionsOf(room, [1, 1])], ["oval", [[[], [["x", 0]]]]], "what is shown")
  assert.deepEqual(room.renewals[0].text.split("\n").at(-2), writeText(["put", [1, 2], [[1, 1]],
    [1, 1], [], [["x", 1]]]), "the end of the text")
}))

/** The server has lost all rooms but an empty first one. The client begins anew in that. */
test("renewed, and all rooms are lost", LIMIT, withServer(async (client, server) => {
  const room = await client()
  await room.create("rect").done
  server.renew()
  await isIn(room, "r.2")
  const resets = []
  room.on("reset", ({ text }) => resets.push(text))
  server.rooms = new RenewingServer().rooms
  server.cut()
  await isIn(room, "r")
  assert.deepEqual(resets, ['["join",1]\n["new",[1,1],[],"rect",[]]\n["join",2]\n'], "the text")
  await agree(server, room)
}))

/** A server that names a room of another drawing, or an earlier one, is not followed. */
test("renewed as a room of another drawing", LIMIT, async () => {
  for (const name of ["s.2", "r", "r.1", "r.02", "r.2.3", ".2", "r.1000000"]) {
    const connect = () => {
      const data = `["renewed",0,"${name}"]`
      const socket = { close() {}, send: () => queueMicrotask(() => socket.onmessage({ data })) }
      queueMicrotask(() => socket.onopen())
      return socket
    }
    const room = new Room("ws://localhost/", "r", { connect })
    await waitUntil("the end", () => room.state === "closed")
    assert.equal(room.fault.name, "ProtocolFault", `the fault with ${name}`)
  }
})

test("names of renewed rooms", LIMIT, () => {
  const long = "a".repeat(62)
  assert.deepEqual(
    ["r", "r.2", "r.9", "r.99", "r.999998", "r.999999", long, `${long}aa`].map(successorOf),
    ["r.2", "r.3", "r.10", "r.100", "r.999999", null, `${long}.2`, null],
    "the successors",
  )
  const after = [["r.2", "r"], ["r.10", "r.9"]]
  const notAfter = [["r.2", "r.2"], ["r", "r.2"], ["s.2", "r"], ["r.01", "r"], ["r.2", "r-2"]]
  assert.deepEqual([...after, ...notAfter].filter((pair) => isAfter(...pair)), after, "which come after")
})

/** Whether a client can go on after one more renewal: what it has to read is then still open. */
function mayLag(room, { rooms }) {
  const behind = [...rooms.keys()].reverse().indexOf(room.name)
  return behind === 0 || (behind === 1 && room.hasEnded)
}

/** Makes a random change with this value. Returns whether it made an object. */
function drawOnce(room, draw, value) {
  // A client that left its work behind is in no room for a moment.
  if (room.site === null) return false
  const objects = room.objects().filter((name) => room.versions(name).some(({ isGone }) => !isGone))
  const object = objects[draw(objects.length)]
  if (object === undefined || draw(3) === 0) {
    room.create("rect", { value })
    return true
  }
  const versions = room.versions(object).filter(({ isGone }) => !isGone)
  room.put(object, versions[draw(versions.length)], { x: value })
  return false
}

/** Draws at random in some rooms, while the newest one is renewed and connections are cut. Returns the new values. */
async function drawAtRandom(server, rooms, draw, isRenewed) {
  const releases = []
  const created = []
  for (let value = 0; value < 300; value++) {
    const room = rooms[draw(rooms.length)]
    if (drawOnce(room, draw, value)) created.push(value)
    if (draw(8) === 0) releases.push(room.hold())
    if (draw(6) === 0) releases.splice(0).forEach((release) => release())
    if (draw(25) === 0) server.cut()
    if (draw(25) === 0 && isRenewed()) server.renew()
    if (draw(2) === 0) await new Promise((resolve) => setTimeout(resolve, draw(4)))
  }
  releases.forEach((release) => release())
  return created
}

/**
 * Clients draw while the room is renewed and connections are cut at random. Each object is there once, and its copies.
 * If rooms may be closed before a client has read them, each object that is not there was refused.
 */
const byChance = (areRead) => async (client, server, t) => {
  const seed = Number(process.env.SEED ?? Date.now() % 1000000)
  console.log(`renewed at random: seed ${seed}`)
  const rooms = [await client(), await client(), await client()]
  const refused = new Set()
  const valueOf = ({ attributes }) => attributes.get("value")
  rooms.forEach((room) => room.on("refusal", ({ change }) => refused.add(valueOf(change.version))))
  const isRenewed = () => !areRead || rooms.every((room) => mayLag(room, server))
  const created = await drawAtRandom(server, rooms, numbersFrom(seed), isRenewed)
  await waitUntil("all is taken", () => rooms.every((room) => room.pending.length === 0))
  await agree(server, ...rooms)
  const values = rooms[0].objects().map((name) => valueOf(rooms[0].versions(name)[0]))
  const lost = created.filter((value) => !values.includes(value) && !refused.has(value))
  assert.deepEqual(lost, [], "what is lost")
  const copies = rooms.flatMap(({ renewals }) => renewals.flatMap((one) => one.copies)).length
  if (areRead) {
    assert.deepEqual([values.length, refused.size], [created.length + copies, 0], "the objects, and the refusals")
  }
  const renewals = server.rooms.size - 1
  t.diagnostic(`${renewals} renewals, ${created.length} objects, ${copies} copies, ${refused.size} refused`)
}

/** Steps from before a renewal can be undone and redone after it, unless the values are others now. */
test("renewed, with steps to undo", LIMIT, withServer(async (client, server) => {
  const [room, other] = [await client(), await client()]
  const undo = new UndoManager(room)
  const [rect, line] = room.transaction(() => [room.create("rect", { x: 0 }), room.create("line", { y: 0 })])
  room.transaction(() => {
    room.put(rect.object, rect.version, { x: 1 })
    room.put(line.object, line.version, { y: 1 })
  })
  await agree(server, room, other)
  server.renew()
  await Promise.all([isIn(room, "r.2"), isIn(other, "r.2")])
  other.put(line.object, [], { y: 2 })
  await agree(server, room, other)
  const { changes, failures } = undo.undo()
  assert.deepEqual(
    [changes.map(({ object }) => object), failures.map(({ reason }) => reason)],
    [[rect.object], ["changed"]],
    "what is undone",
  )
  assert.deepEqual(versionsOf(room, rect.object), [[[], [["x", 0]]]], "the values")
  assert.equal(undo.redo().changes.length, 1, "what is redone")
  assert.deepEqual(versionsOf(room, rect.object), [[[], [["x", 1]]]], "the values then")
  await agree(server, room, other)
}))

/** A full room is only looked at. When it is renewed, the client joins the next one, and can draw. */
test("renewed, of a full room", LIMIT, withServer(async (client, server) => {
  const other = await client()
  const made = other.create("rect", { x: 0 })
  await agree(server, other)
  server.add(["join", 2])
  server.isFull = true
  const room = await client({ lookIfFull: true })
  assert.deepEqual([room.isReadOnly, room.site, room.objects()], [true, null, [made.object]], "what it is")
  assert.deepEqual([...server.newest.sites], [1], "the sites in use between two looks")
  other.put(made.object, [], { x: 1 })
  await agree(server, other)
  server.isFull = false
  server.renew()
  await Promise.all([isIn(room, "r.2"), isIn(other, "r.2")])
  assert.deepEqual([room.isReadOnly, room.site !== null], [false, true], "what it is then")
  room.create("line")
  await agree(server, room, other)
  assert.deepEqual([room.refused, other.refused], [[], []], "what was refused")
}))

test("renewed at random", LIMIT, withServer(byChance(true)))
test("renewed at random, and old rooms are closed", LIMIT, withServer(byChance(false)))
