/** Notes: who sees them, how often they are sent, and what a client that does not use them sends. */

import assert from "node:assert/strict"
import test from "node:test"
import { isDeepStrictEqual } from "node:util"
import { Room } from "../grace.js"
import { Notes } from "../notes.js"
import { LIMIT, waitUntil } from "./checks.js"
import { AT_ONCE, CUT_BEFORE, PASS, Proxy } from "./proxy.js"
import { RenewingServer } from "./renewing_server.js"
import { enter, withProxy, withServer } from "./rooms.js"
import { WebSocket } from "./websocket.js"

// How many milliseconds earlier than due a message may seem to be sent.
const EARLY = 20

const sleep = (milliseconds) => new Promise((resolve) => setTimeout(resolve, milliseconds))

/** Waits until the notes of a room are these. */
const seeNotes = (room, expected) =>
  waitUntil(`the notes ${JSON.stringify(expected)}`, () => isDeepStrictEqual([...room.notes], expected))

/** Records the messages of all clients behind a proxy. Returns the list of them. */
function recordTexts(proxy) {
  const texts = []
  proxy.whatToDo = (text) => {
    texts.push(text)
    return PASS
  }
  return texts
}

/** Waits until the last of these messages is a wait for this entry. Forgets them. */
async function untilWait(texts, from) {
  await waitUntil("the next wait", () => texts.at(-1) === `["wait",${from}]`)
  texts.splice(0)
}

const isOfNotes = (text) => text.startsWith('["note')

/** Two clients see each other's notes, and hear of each change. A note is gone when its client leaves. */
test("notes that others see", LIMIT, withServer(async (client) => {
  const [first, second] = [await client(), await client()]
  const news = []
  second.on("notes", ({ notes }) => news.push([...notes]))
  assert.deepEqual([first.note, [...first.notes]], ["", []], "before the first")
  first.note = "a"
  await seeNotes(second, [[1, "a"]])
  second.note = "b"
  await Promise.all([first, second].map((room) => seeNotes(room, [[1, "a"], [2, "b"]])))
  second.notes.clear()
  assert.equal(second.notes.size, 2, "the notes after a copy was changed")
  first.note = ""
  await Promise.all([first, second].map((room) => seeNotes(room, [[2, "b"]])))
  first.note = "c"
  await seeNotes(second, [[1, "c"], [2, "b"]])
  first.close()
  assert.deepEqual([...first.notes], [], "the notes of a closed room")
  await seeNotes(second, [[2, "b"]])
  assert.deepEqual(news, [
    [[1, "a"]], [[1, "a"], [2, "b"]], [[2, "b"]], [[1, "c"], [2, "b"]], [[2, "b"]],
  ], "the news")
  assert.deepEqual(second.record, [["join", 1], ["join", 2]], "the record")
}))

/** A note is gone when the connection of its client is cut. The client sets it again when it is back. */
test("a note and a lost connection", LIMIT, withProxy(async (proxy, room, other) => {
  room.note = "a"
  await seeNotes(other, [[1, "a"]])
  await seeNotes(room, [[1, "a"]])
  const sizes = []
  room.on("notes", ({ notes }) => sizes.push(notes.size))
  proxy.whatToDo = () => CUT_BEFORE
  proxy.cut()
  await seeNotes(other, [])
  await waitUntil("the connection is lost", () => room.state !== "open")
  assert.deepEqual([...room.notes], [], "the notes meanwhile")
  const texts = recordTexts(proxy)
  await seeNotes(other, [[1, "a"]])
  await seeNotes(room, [[1, "a"]])
  assert.equal(texts.find(isOfNotes), '["note","a"]', "the first request about notes")
  assert.deepEqual(sizes, [0, 1], "the numbers of notes that it told")
}))

/** The server was started again, and the client has to join as a new site. It sets its note as that. */
test("a note of a new site", LIMIT, withProxy(async (proxy, room, other, server) => {
  room.note = "a"
  await seeNotes(room, [[1, "a"]])
  proxy.whatToDo = () => CUT_BEFORE
  other.close()
  await server.end()
  await server.listen(10)
  const first = await enter(server.address)
  first.close()
  proxy.whatToDo = () => PASS
  await seeNotes(room, [[2, "a"]])
}))

/** The client sets its note in the next room of a chain. */
test("a note in a renewed room", LIMIT, async () => {
  const server = new RenewingServer()
  const rooms = [1, 2].map(() => new Room("ws://localhost/", "r", { connect: server.connect }))
  try {
    const [first, second] = rooms
    first.note = "a"
    await seeNotes(second, [[1, "a"]])
    first.create("rect")
    await first.settled()
    server.renew()
    const isThere = ({ name, state }) => name === "r.2" && state === "open"
    await waitUntil("both are in the next room", () => rooms.every(isThere))
    await seeNotes(second, [[first.site, "a"]])
  } finally {
    rooms.forEach((room) => room.close())
  }
})

/** A note that changes often is sent at once, then ten times a second, and the newest one last. */
test("a note that changes often", LIMIT, withServer(async (client) => {
  const sent = []
  const connect = (address) => {
    const socket = new WebSocket(address)
    const send = socket.send.bind(socket)
    socket.send = (text) => {
      if (text.startsWith('["note",')) sent.push({ text, at: performance.now() })
      send(text)
    }
    return socket
  }
  const [room, other] = [await client({ connect }), await client()]
  for (let count = 0; count < 200; count++) {
    room.note = `n${count}`
    await sleep(5)
  }
  await seeNotes(other, [[1, "n199"]])
  assert.deepEqual([sent[0].text, sent.at(-1).text], ['["note","n0"]', '["note","n199"]'], "the first and the last one")
  const milliseconds = sent.at(-1).at - sent[0].at
  assert.ok(milliseconds >= 100 * (sent.length - 1) - EARLY, `${sent.length} notes in ${milliseconds.toFixed()} ms`)
}))

/** A note that is invalid throws at once, and changes and sends nothing. */
test("invalid notes", LIMIT, withProxy(async (proxy, room, other) => {
  room.note = "é".repeat(128)
  await seeNotes(other, [[1, "é".repeat(128)]])
  const texts = recordTexts(proxy)
  const set = (text) => () => { room.note = text }
  const message = "the note: the string has 257 bytes in UTF-8; the limit is 256"
  assert.throws(set(`${"é".repeat(128)}x`), { name: "RangeError", message }, "257 bytes")
  assert.throws(set(5), { name: "TypeError" }, "a number")
  assert.throws(set(undefined), { name: "TypeError" }, "no text")
  assert.throws(set("a\ud800"), { name: "TypeError" }, "an unpaired surrogate")
  assert.deepEqual(room.note, "é".repeat(128), "the note")
  await room.create("rect").done
  assert.deepEqual(texts.filter((text) => text.startsWith('["note",')), [], "the notes sent before the change")
}))

/** A client that does not use notes sends nothing about them, and its wait does not end at a note of others. */
test("notes that are not used", LIMIT, withProxy(async (proxy, room, other) => {
  const texts = recordTexts(proxy)
  const made = room.create("rect")
  await untilWait(texts, 3)
  for (const text of ["a", "b", "c"]) {
    other.note = text
    await seeNotes(other, [[2, text]])
  }
  await room.set(made.name, [], "x", 1).done
  await waitUntil("the next wait", () => texts.length >= 2)
  assert.deepEqual(texts, ['["put",2,[[1,1]],[1,1],[],[["x",1]]]', '["wait",4]'], "the messages")
}))

/** A client asks once for each wait that brought nothing, unless it has set its note meanwhile. */
test("when notes are asked for", LIMIT, withProxy(async (proxy, room, other) => {
  const texts = recordTexts(proxy)
  const expectTexts = async (what, expected) => {
    await waitUntil(what, () => texts.length >= expected.length && texts.at(-1).startsWith('["wait"'))
    assert.deepEqual(texts.splice(0), expected, what)
  }
  other.create("rect")
  await untilWait(texts, 3)
  room.on("notes", () => {})
  await expectTexts("a first listener", ['["notes"]', '["wait",3]'])
  other.note = "b"
  await expectTexts("another's note", ['["notes"]', '["wait",3]'])
  room.note = "a"
  await expectTexts("the own note", ['["note","a"]', '["wait",3]'])
  room.create("line")
  await expectTexts("a change over a wait", ['["new",1,[[2,1]],"line",[]]', '["notes"]', '["wait",4]'])
  other.create("line")
  await expectTexts("another's change", ['["wait",5]'])
}))

/** Where waits are answered at once, a client asks for notes once after each. */
const atOnce = withServer(async (client, server) => {
  const proxy = await Proxy.start(server.port)
  proxy.waits = AT_ONCE
  const texts = recordTexts(proxy)
  const room = await enter(proxy.address, { longestPauseMilliseconds: 200 })
  try {
    const other = await client()
    room.on("notes", () => {})
    other.note = "b"
    await seeNotes(room, [[2, "b"]])
    texts.splice(0)
    await waitUntil("ten waits", () => texts.filter((text) => text.startsWith('["wait"')).length === 10)
    const words = texts.map((text) => text.match(/[a-z]+/)[0])
    const isRepeated = (word, place) => word === words[place - 1]
    assert.ok(words.includes("notes") && !words.some(isRepeated), `the messages are ${words}`)
  } finally {
    room.close()
    proxy.end()
  }
})

/** A server that does not know notes is asked once each time the client enters. All else works. */
test("a server without notes", LIMIT, async () => {
  const server = new RenewingServer()
  server.knowsNotes = false
  const room = new Room("ws://localhost/", "r", { connect: server.connect, retryMilliseconds: [10] })
  const questions = () => server.requests.filter(isOfNotes)
  try {
    const news = []
    room.on("notes", ({ notes }) => news.push(notes))
    room.note = "a"
    await waitUntil("the question", () => questions().length === 1)
    room.note = "b"
    // The time after which a server that knows notes would get the second one.
    await sleep(150)
    await room.create("rect").done
    server.add(["join", 2])
    await waitUntil("the news", () => room.record.length === 3)
    assert.deepEqual(questions(), ['["note","a"]'], "what was asked")
    assert.deepEqual([room.state, room.note, room.notes.size, news], ["open", "b", 0, []], "what there is")
    server.knowsNotes = true
    server.cut()
    await seeNotes(room, [[1, "b"]])
  } finally {
    room.close()
  }
})

/** A note that stays is sent again every 20 seconds, until it is empty. */
test("a note that stays", LIMIT, () => {
  let time = 0
  const sent = []
  const connection = { request: (text) => new Promise(() => sent.push(text)) }
  const notes = new Notes(() => {}, () => time)
  const times = []
  const look = () => times.push(notes.timeLeft)
  notes.enter()
  look()
  notes.use()
  notes.own = "a"
  notes.send(connection)
  look()
  time += 30
  notes.own = "b"
  look()
  notes.own = "a"
  look()
  time += 19970
  look()
  notes.send(connection)
  time += 100
  notes.own = ""
  look()
  notes.send(connection)
  look()
  assert.deepEqual(times, [Infinity, 20000, 70, 19970, 0, 0, Infinity], "the times to the next request")
  assert.deepEqual(sent, ['["note","a"]', '["note","a"]', '["note",""]'], "what is sent")
})

test("notes and waits that are answered at once", LIMIT, atOnce)
