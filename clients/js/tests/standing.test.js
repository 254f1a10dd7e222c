/** The state of a room's connection: waiting changes, a silent server, the progress of loading, and waits for news. */

import assert from "node:assert/strict"
import test from "node:test"
import { readFileSync, readdirSync } from "node:fs"
import { createServer } from "node:net"
import { Room } from "../grace.js"
import { LIMIT, waitUntil } from "./checks.js"
import { AT_ONCE, HELD, PASS, Proxy } from "./proxy.js"
import { agree, enter, withServer } from "./rooms.js"
import { WebSocket } from "./websocket.js"

// The most milliseconds that a timer of this process may be late on a busy machine, and early.
const LATE = 700
const EARLY = 2

const sleep = (milliseconds) => new Promise((resolve) => setTimeout(resolve, milliseconds))

/** Records the news of a room's connection, each with its time. */
function recordNews(room) {
  const news = []
  room.on("state", (state) => news.push({ ...state, at: performance.now() }))
  return news
}

/** Stops a program, and waits until all its threads have stopped. */
async function stop(program) {
  program.kill("SIGSTOP")
  const folder = `/proc/${program.pid}/task`
  const isStopped = (thread) => readFileSync(`${folder}/${thread}/stat`, "utf8").includes(") T ")
  await waitUntil("the program has stopped", () => readdirSync(folder).every(isStopped))
}

/** When a server stops, changes wait. The room reports that after a second, then each second, and at its end. */
test("changes that wait", LIMIT, withServer(async (client, server) => {
  const room = await client()
  const made = room.create("rect")
  await made.done
  const news = recordNews(room)
  await stop(server.program)
  try {
    const start = performance.now()
    room.set(made.name, [], "x", 1)
    assert.deepEqual([room.state, news], ["open", []], "the state at once")
    await waitUntil("news after four seconds", () => news.at(-1)?.milliseconds >= 4000)
    room.set(made.name, [], "x", 2)
    assert.deepEqual(
      [room.state, room.pending.map(({ object }) => object)], ["saving", [made.name, made.name]], "the state",
    )
    let before = 0
    for (const { state, words, milliseconds, at } of news) {
      assert.equal(state, "saving", "its state")
      assert.ok(
        milliseconds >= 1000 && milliseconds - before < 1000 + LATE, `after ${before} ms came ${milliseconds} ms`,
      )
      assert.ok(at - start - milliseconds < LATE, `news of ${milliseconds} ms came after ${at - start} ms`)
      // The room counts the server's silence from its request, which may be a little earlier or later.
      const isSilent = milliseconds > 3000
      if (Math.abs(milliseconds - 3000) > LATE) {
        assert.deepEqual(words.includes("places"), isSilent, `after ${milliseconds} ms`)
      }
      before = milliseconds
    }
  } finally {
    server.program.kill("SIGCONT")
  }
  await room.settled()
  const { state, words, milliseconds } = news.at(-1)
  assert.deepEqual([state, words, milliseconds], ["open", "Connected as site 1.", 0], "the last news")
  assert.deepEqual([room.state, room.pending], ["open", []], "the state at the end")
}))

/** The room reports nothing about a change that is answered in time. */
test("changes that don't wait", LIMIT, withServer(async (client) => {
  const room = await client()
  const news = recordNews(room)
  for (let number = 0; number < 50; number++) room.create("rect")
  await room.settled()
  await sleep(1100)
  assert.deepEqual(news, [], "the news")
}))

/** A server that accepts connections and sends nothing. `times` has the times of its connections. */
async function silentServer() {
  const times = []
  const sockets = []
  const server = createServer((socket) => {
    times.push(performance.now())
    sockets.push(socket)
    socket.on("error", () => {})
  })
  await new Promise((tell) => server.listen(0, "127.0.0.1", tell))
  const end = () => {
    server.close()
    sockets.forEach((socket) => socket.destroy())
  }
  return { times, address: `ws://127.0.0.1:${server.address().port}/`, end }
}

const connect = (address) => new WebSocket(address)

/** A client of a server that accepts and is silent reports that after three seconds. */
test("a silent server", LIMIT, async () => {
  const { address, end } = await silentServer()
  const room = new Room(address, "r", { connect })
  try {
    const news = recordNews(room)
    const start = performance.now()
    await waitUntil("two news", () => news.length === 2)
    const after = news[1].at - start
    const states = news.map(({ state, milliseconds }) => [state, milliseconds])
    assert.deepEqual(states, Array(2).fill(["connecting", 0]), "the states")
    assert.deepEqual(news.map(({ words }) => words.includes("places")), [false, true], "whether places are spoken of")
    assert.ok(after >= 3000 - EARLY && after < 3000 + LATE, `the news came after ${after} ms`)
  } finally {
    room.close()
    end()
  }
})

/** A listener of the state `connecting` can close the room. Then the client makes no connection. */
test("closed while it connects", LIMIT, async () => {
  const { times, address, end } = await silentServer()
  const room = new Room(address, "r", { connect })
  const news = recordNews(room)
  room.on("state", () => room.close())
  try {
    await waitUntil("the end", () => room.state === "closed")
    await sleep(200)
    assert.deepEqual(news.map(({ state }) => state), ["connecting", "closed"], "the states")
    assert.deepEqual(times, [], "the connections")
  } finally {
    end()
  }
})

/** An accepted connection without an answer is a failed attempt: the waits between attempts grow. */
test("attempts at a silent server", LIMIT, async () => {
  const { times, address, end } = await silentServer()
  const waits = [20, 100, 200, 400]
  const room = new Room(address, "r", { connect, replyMilliseconds: 50, retryMilliseconds: waits })
  try {
    await waitUntil("five attempts", () => times.length > waits.length)
    for (const [place, wait] of waits.entries()) {
      const passed = times[place + 1] - times[place]
      assert.ok(passed >= 50 + wait - 2 * EARLY, `attempt ${place + 1} came after ${passed} ms`)
    }
  } finally {
    room.close()
    end()
  }
})

/** The room reports the progress of loading page by page, and its end once. It does so for an empty room too. */
test("the progress of loading", LIMIT, withServer(async (client) => {
  const told = []
  const connecting = (room) => {
    told.splice(0)
    assert.deepEqual([room.progress, room.isLoaded], [{ have: 0, of: 0 }, false], "before it is connected")
    room.on("progress", (news) => told.push([news, room.progress, room.isLoaded, room.objects().length, room.state]))
  }
  const first = await client({ connecting })
  const news = (have, of, isLoaded, objects) =>
    [{ have, of, isLoaded }, { have, of }, isLoaded, objects, "connecting"]
  assert.deepEqual(told, [news(0, 1, false, 0), news(1, 1, true, 0)], "of an empty room")
  for (let number = 0; number < 150; number++) first.create("rect")
  await agree(first)
  const second = await client({ connecting })
  // 151 entries and its own join, 64 on a page.
  assert.deepEqual(told, [
    news(0, 152, false, 0), news(64, 152, false, 0), news(128, 152, false, 0), news(152, 152, true, 150),
  ], "of a room of 151 entries")
  first.create("rect")
  await agree(first, second)
  assert.deepEqual([told.length, second.progress, second.isLoaded], [4, { have: 153, of: 153 }, true], "the later news")
}))

/** Runs a test with a proxy that does this with waits, and counts them. */
const withWaits = (what, run) => withServer(async (client, server) => {
  const proxy = await Proxy.start(server.port)
  const texts = []
  proxy.waits = what
  proxy.whatToDo = (text) => {
    texts.push(text)
    return PASS
  }
  const during = async (milliseconds) => {
    const before = texts.length
    await sleep(milliseconds)
    return texts.slice(before).filter((text) => text.startsWith('["wait"')).length
  }
  const rooms = []
  const enterBehind = async (options) => {
    rooms.push(await enter(proxy.address, options))
    return rooms.at(-1)
  }
  try {
    await run(enterBehind, during, texts)
  } finally {
    rooms.forEach((room) => room.close())
    proxy.end()
  }
})

/** A server answers waits at once. The client waits often while there is news, then less often, and often again. */
test("waits that are answered at once", LIMIT, withWaits(AT_ONCE, async (enterBehind, during) => {
  const other = await enterBehind({ pauseMilliseconds: 60000, longestPauseMilliseconds: 60000 })
  const room = await enterBehind({ longestPauseMilliseconds: 400 })
  await room.create("rect").done
  const busy = await during(500)
  // The pauses are 20, 25, 31, .. milliseconds: at most ten fit. A busy machine lets fewer through.
  assert.ok(busy >= 4 && busy <= 10, `${busy} waits after news`)
  await sleep(2500)
  const idle = await during(1300)
  assert.ok(idle >= 2 && idle <= 4, `${idle} waits without news`)
  other.create("rect")
  await waitUntil("the news", () => room.objects().length === 2)
  const again = await during(500)
  assert.ok(again >= 4 && again <= 10, `${again} waits after news`)
}))

/** A server holds waits. The client sends nothing meanwhile. A change over a held wait is answered at once. */
test("waits that are held", LIMIT, withWaits(HELD, async (enterBehind, during, texts) => {
  const [other, room] = [await enterBehind(), await enterBehind({ replyMilliseconds: 1000 })]
  const made = room.create("rect")
  await agree(room, other)
  const news = recordNews(room)
  assert.equal(await during(2000), 0, "the waits of both while nothing happens")
  const start = performance.now()
  const before = texts.length
  await room.set(made.name, [], "x", 1).done
  await waitUntil("the news", () => other.record.length === room.record.length)
  const passed = performance.now() - start
  assert.ok(passed < LATE, `the news came after ${passed} ms`)
  // Both waits have ended, and each client has sent the next one.
  await waitUntil("the next waits", () => texts.length >= before + 3)
  assert.deepEqual(texts.slice(before).sort(), [
    '["put",2,[[2,1]],[2,1],[],[["x",1]]]', '["wait",4]', '["wait",4]',
  ], "what was sent")
  assert.deepEqual(news, [], "the changes of the connection's state")
}))

/** Answers the requests of each connection in turn by a table. It never answers what the table lacks. */
const answering = (...tables) => () => {
  const answers = tables.shift() ?? {}
  const socket = { close: () => {}, send: (text) => setTimeout(() => {
    if (text in answers) socket.onmessage({ data: answers[text] })
  }) }
  setTimeout(() => socket.onopen())
  return socket
}

/** A server refuses a wait because it has fewer entries: the room was started again. */
test("a wait that is refused", LIMIT, async () => {
  const joined = { '["join","r"]': '["joined",0,1]', '["pull",0]': '["entries",1,0,[["join",1]]]' }
  const connect = answering(
    { ...joined, '["wait",1]': '["no",0,17,"too-far"]' },
    { ...joined, '["back","r",1]': '["no",0,19,"no-such-site"]' },
  )
  const room = new Room("ws://127.0.0.1:1/", "r", { connect, retryMilliseconds: [10] })
  try {
    const news = recordNews(room)
    const resets = []
    room.on("reset", ({ text }) => resets.push(text))
    await waitUntil("the room again", () => resets.length === 1 && room.state === "open")
    assert.deepEqual(resets, ['["join",1]\n'], "the old room")
    assert.deepEqual(
      news.map(({ state }) => state), ["connecting", "open", "waiting", "connecting", "open"], "the states",
    )
  } finally {
    room.close()
  }
})
