/** How a room opens: what the page shows while it loads, and how long that takes. */

import { readFile } from "node:fs/promises"
import { createServer } from "node:net"
import { join } from "node:path"
import { expect, expectEqual } from "../../../clients/js/tests/checks.js"
import { Proxy } from "../../../clients/js/tests/proxy.js"
import { COUNT, HEADING, PICTURES, STATE, isOpen, onScreen, pageOf, serve, step, watch } from "./people.mjs"

const OBJECTS = 200
// A person perceives a delay of up to about one and a half seconds as immediate. Other programs on the machine may use
// its processors for a while, so the shortest of three attempts counts.
const BOUND_MILLISECONDS = 1500
const TRIES = 3
// Long enough to see what the page shows between two answers.
const ROUND_TRIP_MILLISECONDS = 700
const PAGE = new URL("../index.html", import.meta.url)
// More than get their grips at once.
const STROKES = 600

export async function opening(browser) {
  const { server, address } = await serve("--in-memory", "--sessions", "50")
  try {
    await step("an empty room says so once that is known", () => emptyRoom(browser, address))
    await step("a server that does not answer", () => silentServer(browser, address))
    await step(`a room of ${OBJECTS} objects opens in time`, () => fullRoom(browser, address))
    await step("a bar tells how far a room is loaded", () => loadingBar(browser, address))
  } finally {
    server.kill()
  }
  await step("the page names all modules that it loads", namedModules)
  await step(`each of ${STROKES} strokes can be hit beside its line`, () => manyGrips(browser))
}

/** The browser loads all modules at once, as it need not read one to find the next. */
async function namedModules() {
  const page = await readFile(PAGE, "utf8")
  const named = [...page.matchAll(/<(?:link rel="modulepreload" href|script type="module" src)="([^"]+)"/g)]
  const loaded = new Set()
  await findModules(new URL("whiteboard.js", PAGE).href, loaded)
  expectEqual("the modules", named.map(([, path]) => new URL(path, PAGE).href).sort(), [...loaded].sort())
}

/** Adds a module and all that it imports. */
async function findModules(address, found) {
  if (found.has(address)) return
  found.add(address)
  const text = await readFile(new URL(address), "utf8")
  for (const [, path] of text.matchAll(/^(?:import|export) [^"]*"(\.[^"]+)"$/gm)) {
    await findModules(new URL(path, address).href, found)
  }
}

/** Also those that got their grips after they were shown. */
async function manyGrips(browser) {
  const { server, address } = await serve("--in-memory", "--sessions", "50")
  try {
    const room = await watch(address)
    const [wide, high] = [40, 30]
    room.transaction(() => Array.from({ length: STROKES }, (_, place) => room.create("pen", {
      x: (place % 30) * wide, y: Math.floor(place / 30) * high, width: 20, height: 0, "points-0": "0,0 20,0",
    })))
    await room.settled()
    const page = await browser.open(address, 1240, 720)
    await isOpen(page)
    await page.waitUntil("all grips", `document.querySelectorAll(".version > .grip + .body").length === ${STROKES}`)
    for (const place of [0, STROKES / 2, STROKES - 1]) {
      const [x, y] = await onScreen(page, [(place % 30) * wide + 10, Math.floor(place / 30) * high])
      await page.press([x, y + 7])
      await page.release([x, y + 7])
      const selected = await page.look(`document.querySelector(".picked.version")?.dataset.object`)
      expectEqual("the selected stroke", selected, room.objects()[place].join(","))
    }
    expectEqual("grips", await page.look(`document.querySelectorAll(".grip").length`), STROKES)
    expectEqual("faults in the page", page.faults, [])
    await page.close()
    room.close()
  } finally {
    server.kill()
  }
}

/** Returns what the page showed while it loaded: each heading of the panel, and the progress of the bar. */
const TOLD_MEANWHILE = `(() => {
  window.told = { headings: [], progress: [] }
  const note = (list, value) => value !== undefined && list.at(-1) !== value && list.push(value)
  const look = () => {
    note(told.headings, document.querySelector("#panel h2")?.textContent)
    const loading = document.getElementById("loading")
    if (loading !== null && !loading.hidden) note(told.progress, loading.querySelector("progress")?.value)
  }
  new MutationObserver(look).observe(document, { subtree: true, childList: true, attributes: true })
})()`

/** Opens a page that records what it shows from the beginning. */
async function openNoting(browser, address) {
  const page = await browser.open("about:blank", 1240, 720)
  await page.ask("Page.addScriptToEvaluateOnNewDocument", { source: TOLD_MEANWHILE })
  const start = performance.now()
  await page.ask("Page.navigate", { url: address })
  return { page, start }
}

/** The headings but for the first one, `Loading`. A room may be there before the page could show that. */
async function headingsOf(page) {
  const [first, ...others] = await page.look("told.headings")
  return first === "Loading" ? others : [first, ...others]
}

async function emptyRoom(browser, address) {
  const { page } = await openNoting(browser, address)
  await isOpen(page)
  await page.frame()
  expectEqual("the headings", await headingsOf(page), ["Nothing is drawn yet"])
  expectEqual("the bar", await page.look("document.getElementById('loading').hidden"), true)
  await page.picture(join(PICTURES, "empty.png"))
  await page.close()
}

/** Without an answer the page gives the possible reasons, and does not show an empty room. */
async function silentServer(browser, address) {
  const silent = createServer(() => {}).listen(0, "127.0.0.1")
  await new Promise((tell) => silent.once("listening", tell))
  const place = await pageOf(address)
  place.searchParams.set("server", `ws://127.0.0.1:${silent.address().port}/`)
  const page = await browser.open(place.href, 1240, 720)
  await page.waitUntil("the page", `document.getElementById("state") !== null`)
  await page.waitUntil("the words", `${STATE}.includes("All its places may be taken")`)
  expectEqual("the heading", await page.look(HEADING), "Loading")
  await page.picture(join(PICTURES, "silent.png"))
  await page.close()
  silent.close()
}

async function fullRoom(browser, address) {
  const room = await watch(address)
  for (let place = 0; place < OBJECTS; place++) {
    const [column, row] = [place % 20, Math.floor(place / 20)]
    const kind = ["rect", "ellipse", "line"][place % 3]
    room.create(kind, { x: 10 + column * 59, y: 10 + row * 79, width: 44, height: 60, fill: "#4c9f70", name: "" })
  }
  await room.settled()
  const times = []
  for (let time = 0; time < TRIES; time++) times.push(await timeToOpen(browser, address, time === 0))
  room.close()
  console.log(`        opened in ${times.map(Math.round).join(", ")} ms`)
  expect(`it opens within ${BOUND_MILLISECONDS} ms: ${times.map(Math.round)}`, Math.min(...times) <= BOUND_MILLISECONDS)
}

/** Returns the time from the address to all objects. */
async function timeToOpen(browser, address, isFirst) {
  const { page, start } = await openNoting(browser, address)
  await page.waitUntil("all objects", `${COUNT} === ${OBJECTS}`)
  const time = performance.now() - start
  expectEqual("the headings", await headingsOf(page), [`Objects (${OBJECTS})`])
  expectEqual("faults in the page", page.faults, [])
  if (isFirst) await page.picture(join(PICTURES, "many.png"))
  await page.close()
  return time
}

/** Over a slow line the first page of entries comes before the others. The page shows how many it has. */
async function loadingBar(browser, address) {
  const place = await pageOf(address)
  const proxy = await Proxy.start(new URL(place.searchParams.get("server")).port)
  place.searchParams.set("server", `ws://${proxy.address}/`)
  proxy.roundTripMilliseconds = ROUND_TRIP_MILLISECONDS
  const { page } = await openNoting(browser, place.href)
  await page.waitUntil("a part", "told.progress.some((value) => value > 0 && value < 1)")
  const words = await page.look(`document.getElementById("loading").textContent`)
  expect(`the words: ${words}`, /^Loading the drawing: \d+ of 20\d\.$/.test(words))
  await page.picture(join(PICTURES, "loading.png"))
  await page.waitUntil("all objects", `${COUNT} === ${OBJECTS}`)
  expectEqual("the bar", await page.look("document.getElementById('loading').hidden"), true)
  await page.close()
  proxy.end()
}
