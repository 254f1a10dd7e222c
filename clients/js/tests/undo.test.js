/** Transactions, and undo and redo of what one client did. */

import assert from "node:assert/strict"
import test from "node:test"
import { readFileSync } from "node:fs"
import { UndoManager } from "../grace.js"
import { LIMIT, waitUntil } from "./checks.js"
import { AT_ONCE, CUT_AFTER, CUT_BEFORE, PASS, Proxy } from "./proxy.js"
import { agree, enter, operations, versionsOf, withProxy, withServer } from "./rooms.js"
import { Storage } from "./storage.js"

/** Returns what is shown: of each object its kind and its versions that are not gone. */
const shown = (room) => room.objects()
  .map((name) => [room.kind(name), ...versionsOf(room, name).map(([, attributes]) => attributes)])
  .filter(([, ...versions]) => versions.some((version) => version !== "gone"))

/** Makes many changes in one transaction. Returns them. */
const drawMany = (room, count) =>
  room.transaction(() => Array.from({ length: count }, (_, number) => room.create("rect", { number })))

/** The changes of a transaction are one event, and are sent without waiting for replies. */
test("a transaction is sent together", LIMIT, withServer(async (client, server) => {
  const proxy = await Proxy.start(server.port)
  const room = await enter(proxy.address)
  proxy.roundTripMilliseconds = 200
  let [unanswered, most] = [0, 0]
  proxy.whatToDo = (text) => {
    if (text.startsWith('["new"')) unanswered += 1
    most = Math.max(most, unanswered)
    return PASS
  }
  const hear = proxy.hear.bind(proxy)
  proxy.hear = (text) => {
    unanswered -= text.split('["made",').length - 1
    hear(text)
  }
  const events = []
  for (const word of ["change", "transaction"]) {
    room.on(word, ({ objects, changes }) => events.push([word, (objects ?? changes).length]))
  }
  const changes = drawMany(room, 100)
  assert.deepEqual(events, [["change", 100], ["transaction", 100]], "the events")
  const other = await client()
  await agree(room, other)
  assert.equal(most, 32, "the most changes in flight")
  assert.deepEqual(operations(other).map((entry) => entry[1]), changes.map(({ name }) => name), "their order")
  room.close()
  proxy.end()
}))

/** Ten others make 32 versions of an object, the most that it may have: five keys get two values each at once. */
async function makeMostVersions(client, object) {
  const others = await Promise.all(Array.from({ length: 10 }, () => client()))
  const releases = others.map((other) => other.hold())
  others.forEach((other, place) => other.put(object, [], { [`k${place >> 1}`]: place }))
  await Promise.all(others.map((other) => other.settled()))
  releases.forEach((release) => release())
  await agree(...others)
  assert.equal(others[0].versions(object).length, 32, "the versions")
  return others[0]
}

/** The server refuses one change of a transaction, and all behind it for their numbers. The others are sent again. */
test("a transaction of which one change is refused", LIMIT, withServer(async (client) => {
  const room = await client()
  const [full, free] = [room.create("rect"), room.create("rect")]
  await room.settled()
  const release = room.hold()
  const other = await makeMostVersions(client, full.object)
  const changes = room.transaction(() => [
    room.put(free.object, [], { before: 1 }), room.put(full.object, [], { k0: 99 }),
    room.put(free.object, [], { after: 2 }), room.create("line"),
  ])
  const outcomes = await Promise.all(changes.map(({ done }) => done.then(() => "taken", ({ word }) => word)))
  assert.deepEqual(outcomes, ["taken", "too-many-versions", "taken", "taken"], "the outcomes")
  release()
  await agree(room, other)
  assert.deepEqual(room.refused, ["too-many-versions"], "the refusals")
  const own = operations(other).filter(([, [site]]) => site === room.site).slice(2)
  const words = own.map(([word, [, number]]) => [word, number])
  assert.deepEqual(words, [["put", 3], ["put", 4], ["new", 5]], "what the record has")
  assert.deepEqual(shown(room), shown(other), "what both show")
}))

/** A connection that is cut within a transaction: each change is made once. */
test("a transaction that is cut", LIMIT, withServer(async (client, server) => {
  const proxy = await Proxy.start(server.port)
  proxy.waits = AT_ONCE
  const [room, other] = [await enter(proxy.address), await client()]
  let changes = 0
  proxy.whatToDo = (text) => {
    if (text.startsWith('["new"')) changes += 1
    return text.startsWith('["new"') && changes === 20 ? CUT_AFTER : PASS
  }
  drawMany(room, 50)
  await agree(room, other)
  const numbers = operations(other).map((entry) => entry[4][0][1])
  assert.deepEqual([numbers, proxy.cuts], [Array.from({ length: 50 }, (_, number) => number), 1], "the changes")
  room.close()
  proxy.end()
}))

/** A call that throws keeps what it changed, and is one step. */
test("a transaction that throws", LIMIT, withServer(async (client) => {
  const room = await client()
  const undo = new UndoManager(room)
  let words = ""
  try {
    room.transaction(() => {
      room.create("rect")
      room.create("", {})
    })
  } catch ({ name }) {
    words = name
  }
  await room.settled()
  assert.deepEqual([words, shown(room).length], ["TypeError", 1], "what it threw, and what is shown")
  undo.undo()
  assert.deepEqual(shown(room), [], "what is shown then")
}))

/** A step is undone and redone as one: values come back, and so do objects. */
test("undo of a transaction", LIMIT, withServer(async (client) => {
  const [room, other] = [await client(), await client()]
  const undo = new UndoManager(room, { valueOfAbsent: (kind, key) => (key === "fill" ? "none" : "") })
  const [rect, line] = room.transaction(() => [room.create("rect", { x: 0 }), room.create("line", { y: 1 })])
  room.transaction(() => {
    room.put(rect.object, rect.version, { x: 5, fill: "red" })
    room.drop(line.object, line.version)
  })
  const states = [[["rect", [["x", 0]]], ["line", [["y", 1]]]], [["rect", [["fill", "red"], ["x", 5]]]]]
  assert.deepEqual(shown(room), states[1], "what is drawn")
  const back = undo.undo()
  const undone = [["rect", [["fill", "none"], ["x", 0]]], ["line", [["y", 1]]]]
  assert.deepEqual([shown(room), back.failures, back.changes.length], [undone, [], 2], "the first step back")
  assert.deepEqual([undo.canUndo, undo.canRedo], [true, true], "the next ones")
  undo.undo()
  assert.deepEqual([shown(room), undo.canUndo], [[], false], "both steps back")
  undo.redo()
  assert.deepEqual(shown(room), undone, "the first step again")
  undo.redo()
  assert.deepEqual([shown(room), undo.canRedo], [states[1], false], "both steps again")
  assert.deepEqual(undo.redo(), { changes: [], failures: [] }, "no step more")
  undo.undo()
  room.create("text")
  assert.equal(undo.canRedo, false, "a new change forgets what was undone")
  await agree(room, other)
  assert.deepEqual(shown(other), shown(room), "what both show")
}))

/** What others did stays, and what they have built on cannot be undone: the manager says why. */
test("undo of what others built on", LIMIT, withServer(async (client) => {
  const [room, other] = [await client(), await client()]
  const undo = new UndoManager(room)
  const names = ["a", "b", "c", "d"].map((word) => room.create("rect", { word }).object)
  undo.clear()
  const put = (name) => room.put(name, room.versions(name)[0], { x: 1 })
  room.transaction(() => names.forEach(put))
  await agree(room, other)
  const [changed, dropped, twice] = names
  other.put(changed, [], { y: 2 })
  other.drop(dropped, [])
  const release = other.hold()
  room.put(twice, [], { z: 3 })
  other.put(twice, [], { z: 4 })
  release()
  await agree(room, other)
  // The last step is the put of z, which has a version beside it now.
  undo.undo()
  const { changes, failures } = undo.undo()
  assert.deepEqual(changes.map(({ object }) => object), [names[3]], "what is undone")
  assert.deepEqual(
    failures.map(({ change, reason }) => [change.object, reason]),
    [[twice, "several-versions"], [dropped, "deleted"], [changed, "changed"]],
    "what is not",
  )
  assert.equal(failures[2].words, "Somebody has changed it since.", "what it tells people")
  assert.equal(undo.canUndo, false, "what is left to undo")
  await agree(room, other)
  assert.deepEqual([...room.versions(names[3])[0].attributes], [["word", "d"], ["x", ""]], "the values of the last")
}))

/** The server refuses a change that undoes another: that can be undone again. */
test("undo that the server refuses", LIMIT, withServer(async (client) => {
  const room = await client()
  const undo = new UndoManager(room)
  const made = room.create("rect", { k0: 7 })
  room.put(made.object, [], { k0: 8 })
  await room.settled()
  const release = room.hold()
  const other = await makeMostVersions(client, made.object)
  assert.equal(undo.undo().changes.length, 1, "what is undone at first")
  assert.equal(undo.canRedo, true, "what can be redone at first")
  await waitUntil("the refusal", () => room.refused.length > 0)
  assert.deepEqual(
    [room.refused, undo.canUndo, undo.canRedo], [["too-many-versions"], true, false], "what can be undone and redone",
  )
  release()
  await agree(room, other)
  assert.deepEqual(undo.undo().failures.map(({ reason }) => reason), ["several-versions"], "what is told then")
  assert.deepEqual(shown(room), shown(other), "what both show")
}))

/** A client comes back as a new site, with a transaction that was not sent. It can still be undone as one step. */
test("undo as a new site", LIMIT, withProxy(async (proxy, room, other, server) => {
  const storage = new Storage()
  const first = await enter(proxy.address, { storage })
  const undo = new UndoManager(first)
  const made = first.create("rect", { x: 0 })
  await agree(first, other)
  proxy.whatToDo = () => CUT_BEFORE
  proxy.cut()
  await waitUntil("the connection is lost", () => first.state !== "open")
  const stranger = await enter(server.address, { storage: storage.copyFor(server.address) })
  await stranger.create("line").done
  stranger.close()
  first.transaction(() => {
    const put = first.put(made.object, [], { x: 1 })
    first.put(made.object, put.version, { x: 2 })
  })
  const old = first.site
  proxy.whatToDo = () => PASS
  await agree(first, other)
  assert.equal(first.site !== old, true, "whether it has another site")
  assert.deepEqual(undo.undo().failures, [], "the failures")
  await agree(first, other)
  assert.deepEqual(versionsOf(other, made.object), [[[], [["x", 0]]]], "the values")
  first.close()
}))

/** An object of more attributes than a creation takes comes back whole. Only so many steps are kept. */
test("undo of a large object", LIMIT, withServer(async (client) => {
  const room = await client()
  const undo = new UndoManager(room, { mostSteps: 3 })
  const pairs = Array.from({ length: 40 }, (_, number) => [`k${10 + number}`, number])
  const made = room.create("rect", pairs.slice(0, 16))
  const next = room.put(made.object, made.version, pairs.slice(16, 32))
  const last = room.put(made.object, next.version, pairs.slice(32))
  room.drop(made.object, last.version)
  undo.undo()
  assert.deepEqual(shown(room), [["rect", pairs]], "what came back")
  undo.redo()
  assert.deepEqual(shown(room), [], "what is gone again")
  for (let steps = 0; steps < 3; steps++) assert.deepEqual(undo.canUndo && undo.undo().failures, [], `step ${steps}`)
  assert.deepEqual([undo.canUndo, shown(room).length], [false, 1], "the steps")
  undo.end()
  room.create("line")
  assert.equal(undo.canUndo, false, "a manager that has ended")
  await room.settled()
  assert.deepEqual(room.refused, [], "the refusals")
}))

/** The program of the README does what the README says. */
test("the program of transactions and undo", LIMIT, withServer(async (client) => {
  const text = readFileSync(new URL("../README.md", import.meta.url), "utf8")
  const program = /^ {4}import \{ UndoManager \}[^]*?(?=^At the end)/m.exec(text)[0]
  const room = await client()
  const printed = []
  const console = { log: (...words) => printed.push(words) }
  new Function("UndoManager", "room", "console", program.replace(/.*import .*\n/, ""))(UndoManager, room, console)
  await room.settled()
  assert.deepEqual(
    [shown(room), printed], [[["rect", [["x", 0]]], ["line", [["x", 0]]]], []], "what is shown and printed",
  )
}))
