/** A site that lasts: it belongs to a person's browser. A tab that is closed costs no join. */

import assert from "node:assert/strict"
import test from "node:test"
import { Room } from "../grace.js"
import { takeSeat } from "../seats.js"
import { LIMIT, waitUntil } from "./checks.js"
import { CUT_BEFORE, PASS, Proxy } from "./proxy.js"
import { agree, enter, operations, sitesOf, withServer } from "./rooms.js"
import { Locks, Storage } from "./storage.js"
import { WebSocket } from "./websocket.js"

const FIELDS = ["localStorage", "sessionStorage", "navigator"]

/** A browser with tabs. While a function runs `in` a tab, the page of the tab has these globals. */
class Browser {
  local = new Storage()
  locks = new Locks()

  /** Returns a new tab, or a copy of one: it has what the other saved for itself. */
  tab(other) {
    return { session: new Storage(other?.session) }
  }

  in(tab, run) {
    const values = { localStorage: this.local, sessionStorage: tab.session, navigator: { locks: this.locks.of(tab) } }
    const before = FIELDS.map((name) => [name, Object.getOwnPropertyDescriptor(globalThis, name)])
    FIELDS.forEach((name) => Object.defineProperty(globalThis, name, { value: values[name], configurable: true }))
    try {
      return run()
    } finally {
      for (const [name, field] of before) {
        delete globalThis[name]
        if (field !== undefined) Object.defineProperty(globalThis, name, field)
      }
    }
  }

  /** Opens the page of a room in a tab. */
  open(tab, address, options) {
    return this.in(tab, () => enter(address, { storage: "person", ...options }))
  }
}

/** A tab that is closed and opened again is the same site. A second one has another site, and keeps it too. */
test("a site that lasts", LIMIT, withServer(async (client, server) => {
  const browser = new Browser()
  const other = await client()
  const first = await browser.open(browser.tab(), server.address)
  const made = first.create("rect", { x: 1 })
  await made.done
  const second = await browser.open(browser.tab(), server.address)
  assert.deepEqual([first.site, second.site], [2, 3], "two open tabs")
  first.close()
  second.close()
  const later = browser.tab()
  const [again, twice] = [await browser.open(later, server.address), await browser.open(browser.tab(), server.address)]
  assert.deepEqual([again.site, twice.site, again.objects()], [2, 3, [[2, 1]]], "two later tabs")
  again.close()
  const copied = await browser.open(browser.tab(later), server.address)
  assert.equal(copied.site, 2, "a copied tab when the first is closed")
  const beside = await browser.open(browser.tab(later), server.address)
  assert.equal(beside.site, 4, "a copied tab when the first is open")
  await agree(other, beside)
  assert.deepEqual(sitesOf(other), [1, 2, 3, 4], "the joins")
  for (const room of [twice, copied, beside]) room.close()
}))

/** A closed tab had a change that was not sent. The next tab sends it, even if another seat is free. */
test("a site that lasts, with an unsent change", LIMIT, withServer(async (client, server) => {
  const browser = new Browser()
  const other = await client()
  const proxy = await Proxy.start(server.port)
  const first = await browser.open(browser.tab(), proxy.address)
  const second = await browser.open(browser.tab(), proxy.address)
  proxy.whatToDo = (text) => (text.startsWith('["new"') ? CUT_BEFORE : PASS)
  const made = second.create("rect", { x: 7 })
  await waitUntil("the connection is cut", () => proxy.cuts > 0)
  first.close()
  second.close()
  assert.equal(await made.done.catch(({ word }) => word), "closed", "the outcome")
  proxy.whatToDo = () => PASS
  const later = await browser.open(browser.tab(), proxy.address)
  await agree(other, later)
  assert.deepEqual(
    [later.site, operations(other)], [3, [["new", [3, 1], [], "rect", [["x", 7]]]]], "the site, and what all have",
  )
  later.close()
  proxy.end()
}))

/** A tab that crashed frees its seat. A tab that is reloaded has its own seat, though the first one is free. */
test("a site that lasts, after a reload", LIMIT, withServer(async (client, server) => {
  const browser = new Browser()
  const [crashing, staying] = [browser.tab(), browser.tab()]
  const first = await browser.open(crashing, server.address)
  const second = await browser.open(staying, server.address)
  browser.locks.end(crashing)
  second.close()
  const again = await browser.open(staying, server.address)
  assert.deepEqual([second.site, again.site], [2, 2], "the site of the reloaded tab")
  first.close()
  const next = await browser.open(browser.tab(), server.address)
  assert.equal(next.site, 1, "the site of the next tab")
  next.close()
  again.close()
}))

/** Without locks, as on a page without TLS, a tab has what it saved for itself. */
test("a site that lasts without locks", LIMIT, withServer(async (client, server) => {
  const browser = new Browser()
  browser.locks.of = () => undefined
  const tab = browser.tab()
  const first = await browser.open(tab, server.address)
  first.close()
  const again = await browser.open(tab, server.address)
  assert.deepEqual([first.site, again.site, browser.local.length], [1, 1, 0], "the sites")
  again.close()
  browser.locks.of = () => ({ request: async () => { throw new Error("denied") } })
  const denied = await browser.open(tab, server.address)
  assert.equal(denied.site, 1, "the site where locks are denied")
  denied.close()
}))

/** A browser's storage that fills up loses records of rooms that no tab has open; sites and unsent changes stay. */
test("a browser's storage that fills up", LIMIT, async () => {
  const browser = new Browser()
  const big = "x".repeat(900000)
  for (const room of ["a", "b", "c", "d"]) {
    browser.local.setItem(`grace ws://s/ ${room} site`, "1")
    browser.local.setItem(`grace ws://s/ ${room} record 0`, big)
    browser.local.setItem(`grace ws://s/ ${room} changes`, room === "b" ? '[["new"]]' : "[]")
  }
  const locksOf = (tab) => browser.locks.of(tab)
  const seatFor = (room) => {
    const tab = browser.tab()
    return takeSeat({ local: browser.local, session: tab.session, locks: locksOf(tab) }, "ws://s/", room)
  }
  browser.local.removeItem("grace ws://s/ d record 0")
  const first = await seatFor("a")
  const records = () => ["a", "b", "c"].filter((room) => browser.local.getItem(`grace ws://s/ ${room} record 0`))
  assert.deepEqual([first.number, records()], [1, ["a", "b"]], "which records stay")
  assert.equal([...browser.local.texts.keys()].filter((key) => key.endsWith("site")).length, 4, "which sites stay")
  first.release()
})

/** Uses up all joins of an empty room. Returns a connection that is in no room. */
async function useUp(address) {
  const socket = new WebSocket(`ws://${address}/`)
  await new Promise((tell) => (socket.onopen = tell))
  const ask = (...requests) => new Promise((tell) => {
    const replies = []
    socket.onmessage = ({ data }) => {
      replies.push(JSON.parse(data))
      if (replies.length === requests.length) tell(replies)
    }
    requests.forEach((request) => socket.send(JSON.stringify(request)))
  })
  const joins = Array.from({ length: 256 }, () => [["join", "r"], ["leave"]]).flat()
  const replies = await ask(...joins)
  assert.equal(replies.at(-2)[2], 256, "the last site")
  return { ask, end: () => socket.close() }
}

/** A room whose joins are used up is shown, and follows. Its sites stay free for those whose they are. */
test("a full room is shown", LIMIT, withServer(async (client, server) => {
  const { ask, end } = await useUp(server.address)
  await ask(["back", "r", 1], ["new", 1, [], "rect", [["x", 1]]], ["leave"])
  const closed = new Room(`ws://${server.address}/`, "r", { connect: (address) => new WebSocket(address) })
  await waitUntil("a client without the option is closed", () => closed.state === "closed")
  assert.equal(closed.fault.word, "room-full", "its fault")
  const room = await client({ lookIfFull: true })
  assert.deepEqual(
    [room.state, room.isReadOnly, room.site, room.words],
    ["open", true, null, "The room is full. You can look at it, but not change it."],
    "what it is",
  )
  assert.deepEqual(room.objects(), [[1, 1]], "what it shows")
  assert.throws(() => room.create("rect"), { name: "Refused", word: "read-only" }, "a change")
  // Between its looks all sites are free. A look takes a few replies, so one of some attempts comes between two.
  let backs = []
  for (let tries = 0; tries < 50 && backs[0]?.[0] !== "back"; tries++) backs = await ask(["back", "r", 1])
  assert.deepEqual(backs[0].slice(2), [1, 1], "the owner")
  await ask(["put", 2, [[1, 1]], [1, 1], [], [["x", 2]]])
  await waitUntil("the news", () => room.versions([1, 1])[0].attributes.get("x") === 2)
  assert.deepEqual([room.state, room.isReadOnly, room.pending], ["open", true, []], "what it is then")
  end()
}))
