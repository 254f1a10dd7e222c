/** Handshakes: the path that a client asks for, and what it makes of each answer, told or not. */

import assert from "node:assert/strict"
import test from "node:test"
import { Room } from "../grace.js"
import { LIMIT, waitUntil } from "./checks.js"
import { Server } from "./program.js"
import { Proxy } from "./proxy.js"
import { agree, enter } from "./rooms.js"
import { WebSocket } from "./websocket.js"

const ANSWERS = {
  401: ["HTTP/1.1 401 Unauthorized", 'WWW-Authenticate: Basic realm="drawing"'],
  403: ["HTTP/1.1 403 Forbidden"],
  404: ["HTTP/1.1 404 Not Found"],
}
const WORDS = {
  401: "The server needs a user and a password that it knows: 401 Unauthorized.",
  403: "The server does not let you in: 403 Forbidden.",
  404: "The server has no room at this address: 404 Not Found.",
}
// Longer than several attempts take with the pauses of these tests.
const SEVERAL_ATTEMPTS = 300
// The most milliseconds that a timer may be early.
const EARLY = 2

const connect = (address) => new WebSocket(address)
/** Opens a socket that tells no answer, like those of browsers. */
const connectLikeBrowser = (address) => Object.assign(new WebSocket(address), { isSilent: true })
const sleep = (milliseconds) => new Promise((resolve) => setTimeout(resolve, milliseconds))

/** Runs a test with a server, a proxy before it and a function that opens a client through the proxy. */
const behindProxy = (run) => async () => {
  const server = await Server.start()
  const proxy = await Proxy.start(server.port)
  const rooms = []
  const open = (options) => {
    const room = new Room(`ws://${proxy.address}/`, "r", { connect, retryMilliseconds: [10, 20, 50], ...options })
    room.waits = []
    room.on("state", ({ state, words }) => state === "waiting" && room.waits.push(words))
    rooms.push(room)
    return room
  }
  try {
    await run(proxy, open, server)
  } finally {
    rooms.forEach((room) => room.close())
    proxy.end()
    await server.end()
  }
}

const isOpen = (room) => waitUntil("the client is in the room", () => room.state === "open")

/** An answer that would always be the same ends the room with the reason. There is no other attempt. */
const denied = (status) => async (proxy, open) => {
  proxy.answers.push(ANSWERS[status])
  const room = open()
  assert.equal(room.fault, null, "the error at first")
  await waitUntil("the end", () => room.state === "closed")
  await sleep(SEVERAL_ATTEMPTS)
  const { fault } = room
  const reason = ANSWERS[status][0].slice("HTTP/1.1 401 ".length)
  assert.deepEqual([fault.name, fault.status, fault.reason], ["Denied", status, reason], "the error")
  assert.deepEqual([room.words, fault.message, room.waits], [WORDS[status], WORDS[status], []], "the words")
  assert.equal(proxy.heads.length, 1, "the attempts")
}

/** So does one to an attempt to come back. The storage keeps the site and the changes for the next client. */
const deniedLater = (status) => async (proxy, open) => {
  const saved = new Map()
  const storage = {
    getItem: (key) => saved.get(key) ?? null,
    setItem: (key, text) => saved.set(key, text),
    removeItem: (key) => saved.delete(key),
  }
  const room = open({ storage })
  await isOpen(room)
  proxy.answers.push(ANSWERS[status])
  proxy.cut()
  await waitUntil("the connection is lost", () => room.state !== "open")
  const word = room.create("rect").done.catch((refusal) => refusal.word)
  await waitUntil("the end", () => room.state === "closed")
  assert.deepEqual([room.fault.status, room.words, await word], [status, WORDS[status], "closed"], "the error")
  await sleep(SEVERAL_ATTEMPTS)
  assert.equal(proxy.heads.length, 2, "the attempts")
  const next = open({ storage })
  await isOpen(next)
  await next.settled()
  assert.deepEqual([next.site, next.objects()], [1, [[1, 1]]], "what the next one is")
}

/** While the server is not there, the client waits. Then it comes back as its site with its changes. */
const comesBackAfter = (line, words) => async (proxy, open, server) => {
  const room = open()
  await isOpen(room)
  const other = await enter(server.address)
  proxy.answers.push([line], [line], [line])
  proxy.cut()
  await waitUntil("the connection is lost", () => room.state !== "open")
  await room.create("rect").done
  await agree(room, other)
  assert.deepEqual([room.site, other.objects()], [1, [[1, 1]]], "the site and the object")
  assert.equal(proxy.heads.length, 5, "the attempts")
  assert.deepEqual(room.waits.slice(1), Array(3).fill(`${words} Trying again.`), "the words")
  other.close()
}

/** The client waits as long as the answer asks, up to its own longest pause. */
const retryAfter = (value, longest, least, most) => async (proxy, open) => {
  proxy.answers.push(["HTTP/1.1 503 Service Unavailable", `Retry-After: ${value}`])
  await isOpen(open({ retryMilliseconds: [10, longest] }))
  const [first, second] = proxy.heads
  const passed = second.at - first.at
  assert.ok(passed >= least - EARLY && passed < most, `the second attempt came after ${passed} ms`)
}

/** After any other answer the client tries again, and says what it was. */
test("other answers to a handshake", LIMIT, behindProxy(async (proxy, open) => {
  proxy.answers.push(["HTTP/1.1 500 Internal Server Error"], ["HTTP/1.1 200"])
  const room = open()
  await isOpen(room)
  const front = "The server did not accept the WebSocket handshake"
  assert.deepEqual(room.waits, [
    `${front}: 500 Internal Server Error. Trying again.`, `${front}: 200. Trying again.`,
  ], "the words")
}))

/** A browser tells no answer: the client tries again after growing pauses, and comes back once it is let in. */
test("answers that a browser does not tell", LIMIT, behindProxy(async (proxy, open) => {
  const waits = [20, 100, 200, 400]
  const room = open({ connect: connectLikeBrowser, retryMilliseconds: waits })
  await isOpen(room)
  const made = room.create("rect")
  await made.done
  proxy.answers.push(ANSWERS[401], ANSWERS[403], ANSWERS[404], ["HTTP/1.1 503 Service Unavailable"])
  proxy.cut()
  await waitUntil("the connection is lost", () => room.state !== "open")
  await isOpen(room)
  const times = proxy.heads.slice(1).map(({ at }) => at)
  assert.equal(times.length, 5, "the attempts")
  // The lost connection has used up the first pause.
  for (const [place, wait] of [100, 200, 400, 400].entries()) {
    const passed = times[place + 1] - times[place]
    assert.ok(passed >= wait - EARLY, `attempt ${place + 2} came after ${passed} ms`)
  }
  assert.deepEqual(room.waits.slice(1), Array(4).fill("The connection failed. Trying again."), "the words")
  assert.deepEqual([room.site, room.objects()], [1, [made.name]], "the site and the objects")
}))

/** Sockets that answer each request by the next reply of theirs and end when there is none left. */
function scripted(requests, ...connections) {
  return () => {
    const replies = connections.shift() ?? []
    const socket = { close() {}, send(text) {
      requests.push(text)
      const data = replies.shift()
      queueMicrotask(() => (data === undefined ? socket.onclose({}) : socket.onmessage({ data })))
    } }
    queueMicrotask(() => socket.onopen())
    return socket
  }
}

/** While the server cannot serve the room, a client that comes back asks again as its site. */
test("not served when it comes back", LIMIT, async () => {
  const requests = []
  const joined = ['["joined",0,1]', '["entries",1,0,[["join",1]]]']
  const back = [
    '["no",0,21,"not-served"]', '["no",1,20,"site-in-use"]', '["back",1,1,0]', '["entries",1,0,[["join",1]]]',
    '["entries",1,1,[]]',
  ]
  // The second for which the client tries to come back begins anew after the first refusal.
  const options = { connect: scripted(requests, joined, back), backMilliseconds: 1000, retryMilliseconds: [10, 60000] }
  const room = new Room("ws://localhost/", "r", options)
  const words = []
  const resets = []
  room.on("state", () => words.push(room.words))
  room.on("reset", (news) => resets.push(news))
  try {
    await waitUntil("the client is back", () => requests.length > 3 && room.state === "open")
    assert.deepEqual(requests.slice(2, 7), [
      '["wait",1]', ...Array(3).fill('["back","r",1]'), '["pull",0]',
    ], "the requests")
    assert.deepEqual([room.site, resets], [1, []], "what it is")
    const wanted = "The server cannot open this room now: it may have no place for one more. Trying again."
    assert.ok(words.includes(wanted), "it says so")
  } finally {
    room.close()
  }
})

/** With the option the path ends with the room's name. Without it the path is that of the address. */
test("the room in the path", LIMIT, async () => {
  const addresses = []
  const options = (isInPath) => ({
    roomInPath: isInPath,
    connect: (address) => {
      addresses.push(address)
      return { close() {}, send() {} }
    },
  })
  const rows = [
    ["ws://h:7000", false, "ws://h:7000"], ["ws://h:7000/", false, "ws://h:7000/"],
    ["wss://h/studio", false, "wss://h/studio"], ["ws://h:7000", true, "ws://h:7000/r"],
    ["ws://h:7000/", true, "ws://h:7000/r"], ["wss://h/rooms", true, "wss://h/rooms/r"],
    ["wss://h/a/?key=5", true, "wss://h/a/r?key=5"],
  ]
  for (const [address, isInPath] of rows) {
    const room = new Room(address, "r", options(isInPath))
    await sleep(0)
    room.close()
  }
  assert.deepEqual(addresses, rows.map(([, , expected]) => expected), "the addresses")
})

/** The server lets a client in by this path. */
test("by the room's path", LIMIT, behindProxy(async (proxy, open) => {
  await isOpen(open({ roomInPath: true }))
  assert.ok(proxy.heads[0].head.startsWith("GET /r HTTP/1.1\r\n"), "the path")
}))

const UNREACHED = "The proxy does not reach the server."

for (const status of [401, 403, 404]) {
  test(`denied by ${status}`, LIMIT, behindProxy(denied(status)))
  test(`denied by ${status} when it comes back`, LIMIT, behindProxy(deniedLater(status)))
}
test("back after 502", LIMIT, behindProxy(comesBackAfter("HTTP/1.1 502 Bad Gateway", UNREACHED)))
test("back after 503", LIMIT, behindProxy(comesBackAfter(
  "HTTP/1.1 503 Service Unavailable", "All places of the server are taken.",
)))
test("back after 504", LIMIT, behindProxy(comesBackAfter("HTTP/1.1 504 Gateway Timeout", UNREACHED)))
test("a pause that the server asks for", LIMIT, behindProxy(retryAfter(1, 5000, 1000, 4000)))
test("a longer pause than the client's own", LIMIT, behindProxy(retryAfter(86400, 500, 500, 4000)))
test("a pause until a date", LIMIT, behindProxy(retryAfter("Fri, 31 Dec 2027 23:59:59 GMT", 5000, 0, 4000)))
