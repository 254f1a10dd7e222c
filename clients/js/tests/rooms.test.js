/** Clients in one room of `grace serve`: their shared drawing, and refusals. */

import assert from "node:assert/strict"
import test from "node:test"
import { readFileSync } from "node:fs"
import { LIMITS, Room } from "../grace.js"
import { LIMIT, waitUntil } from "./checks.js"
import { OPTIONS, agree, versionsOf, withServer } from "./rooms.js"

test("two clients make two versions", LIMIT, withServer(async (client) => {
  const first = await client()
  const made = first.create("rect", { x: 0 })
  await made.done
  assert.deepEqual(first.record, [["join", 1], ["new", [1, 1], [], "rect", [["x", 0]]]], "the record")
  const second = await client()
  assert.deepEqual([second.site, second.kind(made.name)], [2, "rect"], "what a late client is")
  assert.deepEqual(versionsOf(second, made.name), [[[], [["x", 0]]]], "what it shows")
  const release = second.hold()
  first.set(made.name, [], "x", 5)
  await waitUntil("the news", () => second.hasNews)
  assert.deepEqual(versionsOf(second, made.name), [[[], [["x", 0]]]], "what is held back")
  const change = second.set(made.name, [], "x", 9)
  assert.deepEqual(change.version.id, [], "the version that a change made")
  await change.done
  assert.deepEqual(second.record.at(-1), ["put", [2, 1], [[1, 1]], [1, 1], [], [["x", 9]]], "the vector")
  release()
  await agree(first, second)
  const two = [[[[1, 2]], [["x", 5]]], [[[2, 1]], [["x", 9]]]]
  assert.deepEqual([versionsOf(first, made.name), versionsOf(second, made.name)], [two, two], "what both show")
  const successors = second.successors(made.name, change.version)
  assert.deepEqual(successors.map(({ id }) => id), [[[2, 1]]], "the successors of the change")
  const next = first.set(made.name, [[2, 1]], "fill", "red")
  assert.deepEqual(next.version.id, [[1, 3], [2, 1]], "the next version's name")
  await agree(first, second)
  const after = [[[[1, 2]], [["x", 5]]], [[[1, 3], [2, 1]], [["fill", "red"], ["x", 9]]]]
  assert.deepEqual([versionsOf(first, made.name), versionsOf(second, made.name)], [after, after], "what both show then")
}))

/** A put that counts what its author saw earlier conflicts with what others have changed since, though it is shown. */
test("a put by an earlier state vector", LIMIT, withServer(async (client) => {
  const [first, second] = [await client(), await client()]
  const made = first.create("rect", { x: 0 })
  await agree(first, second)
  const { seen } = second
  first.put(made.name, [], { x: 5, y: 7 })
  await agree(first, second)
  const change = second.put(made.name, [], { x: 9 }, seen)
  assert.deepEqual([...change.version.attributes], [["x", 9]], "the version that it made")
  await agree(first, second)
  assert.deepEqual(second.record.at(-1), ["put", [2, 1], [[1, 1]], [1, 1], [], [["x", 9]]], "the vector")
  const two = [[[[1, 2]], [["x", 5], ["y", 7]]], [[[2, 1]], [["x", 9]]]]
  assert.deepEqual([versionsOf(first, made.name), versionsOf(second, made.name)], [two, two], "what both show")
  second.put(made.name, [], { z: 1 }, seen)
  await agree(first, second)
  assert.deepEqual(second.record.at(-1)[2], [[1, 1], [2, 1]], "the vector of the next one")
  assert.throws(() => second.put(made.name, [], { x: 1 }, 5), { name: "TypeError" }, "no vector")
}))

/** Many changes without waiting for replies arrive in order, each once. */
test("many changes in one go", LIMIT, withServer(async (client) => {
  const [first, second] = [await client(), await client()]
  const made = first.create("rect")
  let version = []
  for (let x = 0; x < 20; x++) version = first.set(made.name, version, "x", x).version
  const other = first.create("line", [["y", 2n ** 63n - 1n]])
  assert.equal(first.pending.length, 22, "what is waiting")
  await agree(first, second)
  assert.equal(first.pending.length, 0, "the answers")
  assert.deepEqual(versionsOf(second, made.name), [[[], [["x", 19]]]], "the other's view")
  assert.deepEqual(versionsOf(second, other.name), [[[], [["y", 2n ** 63n - 1n]]]], "a large number")
  assert.deepEqual([first.objects(), second.objects()], [[[1, 1], [1, 22]], [[1, 1], [1, 22]]], "the objects")
  assert.deepEqual(
    second.record.filter(([word]) => word !== "join").map(([, [, number]]) => number),
    Array.from({ length: 22 }, (_, place) => place + 1),
    "the numbers",
  )
}))

/** The listener gets each object that changed, and no other. */
test("listeners", LIMIT, withServer(async (client) => {
  const [first, second] = [await client(), await client()]
  const changed = []
  const end = second.on("change", ({ objects }) => changed.push(...objects))
  const made = first.create("rect")
  await agree(first, second)
  assert.deepEqual(changed.splice(0), [made.name], "a new object")
  first.set(made.name, [], "x", 1)
  await agree(first, second)
  assert.deepEqual(changed.splice(0), [made.name], "a changed object")
  end()
  first.set(made.name, [], "x", 2)
  await agree(first, second)
  assert.deepEqual(changed, [], "after the end")
}))

/** The library refuses invalid changes at once, in words, and sends nothing. */
test("refused before it is sent", LIMIT, withServer(async (client) => {
  const early = new Room("ws://127.0.0.1:1/", "r", OPTIONS)
  assert.throws(() => early.create("rect"), { name: "Refused", word: "not-joined" }, "before the join")
  early.close()
  assert.throws(() => early.create("rect"), { name: "Refused", word: "closed" }, "after the close")
  assert.throws(() => new Room("ws://127.0.0.1:1/", "R"), { name: "TypeError" }, "no name of a room")
  const room = await client()
  const { name } = room.create("rect")
  assert.throws(() => room.set([9, 9], [], "x", 1), { name: "Refused", word: "no-such-object" }, "no object")
  assert.throws(() => room.set(name, [[1, 1]], "x", 1), { name: "Refused", word: "no-such-version" }, "no version")
  assert.throws(() => room.set(name, [], "X", 1), { name: "TypeError" }, "no key")
  assert.throws(() => room.set(name, [], "x", 0.5), { name: "RangeError" }, "no value")
  assert.throws(() => room.put(name, [], {}), { name: "RangeError" }, "no attribute")
  assert.throws(() => room.put(name, [], [["x", 1], ["x", 2]]), { name: "TypeError" }, "a key twice")
  assert.throws(() => room.create("a b"), { name: "TypeError" }, "no kind")
  const events = "change, state, progress, refusal, reset, renewed, transaction, notes"
  const message = `there is no event news; the events are ${events}`
  assert.throws(() => room.on("news", () => {}), { name: "TypeError", message }, "no event")
  for (let key = 0; key < LIMITS.keys; key++) room.set(name, [], `k${key}`, key)
  assert.throws(
    () => room.put(name, [], { k0: 1, k64: 1 }),
    { name: "Refused", word: "too-many-keys", message: "This object has reached its limit of attributes." },
    "the 65th key",
  )
  const { version } = room.drop(name, [])
  assert.throws(() => room.set(name, version, "x", 1), { name: "Refused", word: "gone" }, "one that is gone")
  await room.settled()
  assert.deepEqual([room.record.length, room.refused], [3 + LIMITS.keys, []], "the record")
}))

/** One client drops a version while another, who has not seen that, changes it. */
test("a version is dropped", LIMIT, withServer(async (client) => {
  const [first, second] = [await client(), await client()]
  const made = first.create("rect", { x: 0, y: 0 })
  await agree(first, second)
  const release = second.hold()
  const drop = first.drop(made.name, [])
  assert.deepEqual([drop.version.isGone, [...drop.version.attributes]], [true, []], "the dropped version")
  await drop.done
  const put = second.put(made.name, [], { x: 5, y: 7 })
  await put.done
  release()
  await agree(first, second)
  const both = [[[drop.name], "gone"], [[put.name], [["x", 5], ["y", 7]]]]
  assert.deepEqual([versionsOf(first, made.name), versionsOf(second, made.name)], [both, both], "what both show")
  const successors = second.successors(made.name, put.version)
  assert.deepEqual(successors.map(({ isGone }) => isGone), [false], "the successors of the put")
  assert.deepEqual(second.versions(made.name).map(({ outlived }) => outlived), [[], [drop.name]], "what it outlived")
  first.drop(made.name, [put.name])
  await agree(first, second)
  assert.deepEqual(second.versions(made.name).map(({ isGone }) => isGone), [true, true], "all are gone")
}))

/** A refusal of the server takes back the refused change and the changes that depend on it, and no others. */
test("a refusal of the server", LIMIT, withServer(async (client) => {
  const first = await client()
  const others = await Promise.all(Array.from({ length: LIMITS.versions + 1 }, () => client()))
  const made = first.create("rect", { x: 0 })
  await agree(first, ...others)
  const releases = others.map((room) => room.hold())
  for (const [place, room] of others.slice(0, -1).entries()) await room.set(made.name, [], "x", place + 1).done
  const last = others.at(-1)
  const refused = last.set(made.name, [], "x", 99)
  const behind = last.set(made.name, refused.version, "fill", "red")
  const apart = last.create("line", { x: 7 })
  const onIt = last.set(apart.name, [], "x", 8)
  const words = await Promise.all([refused, behind].map(({ done }) => done.catch(({ word }) => word)))
  assert.deepEqual([words, last.refused], Array(2).fill(["too-many-versions", "withdrawn"]), "the refusals")
  assert.deepEqual(versionsOf(last, made.name), [[[], [["x", 0]]]], "what is shown again")
  await Promise.all([apart.done, onIt.done])
  assert.deepEqual([apart.name, onIt.name], [[last.site, 1], [last.site, 2]], "the new names")
  releases.forEach((release) => release())
  await agree(first, ...others)
  assert.deepEqual(first.versions(made.name).length, LIMITS.versions, "the versions")
  assert.deepEqual(versionsOf(first, apart.name), [[[], [["x", 8]]]], "the other object")
}))

/** A room that does not exist is reported in words, and the client does not retry. */
test("no such room", LIMIT, withServer(async (client, server) => {
  const room = new Room(`ws://${server.address}/`, "elsewhere", OPTIONS)
  await waitUntil("the end", () => room.state === "closed")
  assert.equal(room.words, "The server has no room with this name.", "the words")
}))

/** A socket that answers each request by the next of these replies, and notes the requests. */
function scriptedSocket(replies, requests) {
  const socket = {
    send(text) {
      requests.push(text)
      const data = replies.shift()
      if (data !== undefined) queueMicrotask(() => socket.onmessage({ data }))
    },
    close() {},
  }
  queueMicrotask(() => socket.onopen())
  return socket
}

/** While the server cannot serve the room, the client says so, and asks again over the same connection. */
test("not served", LIMIT, async () => {
  const replies = ['["no",0,21,"not-served"]', '["joined",0,1]', '["entries",1,0,[["join",1]]]']
  const requests = []
  const words = []
  const connect = () => scriptedSocket(replies, requests)
  const room = new Room("ws://localhost/", "r", { connect })
  room.on("state", () => words.push(room.words))
  await waitUntil("the entry", () => room.state === "open")
  room.close()
  assert.deepEqual(requests.slice(0, 3), ['["join","r"]', '["join","r"]', '["pull",0]'], "the requests")
  const wanted = "The server cannot open this room now: it may have no place for one more. Trying again."
  assert.equal(words.includes(wanted), true, "whether it says so")
})

/** The first program of the README prints the expected output. */
test("the first program", LIMIT, withServer(async (client, server) => {
  const text = readFileSync(new URL("../README.md", import.meta.url), "utf8")
  const program = text.match(/^ {4}import [^]*?(?=^With)/m)[0]
  const body = program.replace(/.*import .*\n/, "").replace("127.0.0.1:7000", server.address)
  const printed = []
  const rooms = []
  const Recorded = class extends Room {
    constructor(address, name) {
      super(address, name, OPTIONS)
      rooms.push(this)
    }
  }
  const log = (...words) => printed.push(words)
  new Function("Room", "console", body)(Recorded, { log })
  await waitUntil("its end", () => rooms[0].state === "closed")
  assert.deepEqual(printed, [0, 5, 5].map((x) => ["rect", x > 0 ? { x, y: 7 } : { x }]), "what it prints")
}))

/** Without a global WebSocket and the option, an error says at once what to pass. */
test("no WebSocket", LIMIT, () => {
  const own = Object.getOwnPropertyDescriptor(globalThis, "WebSocket")
  delete globalThis.WebSocket
  try {
    const error = { name: "TypeError", message: /Pass the option connect/ }
    assert.throws(() => new Room("ws://127.0.0.1:1/", "r"), error, "it says what to hand in")
  } finally {
    if (own !== undefined) Object.defineProperty(globalThis, "WebSocket", own)
  }
})
