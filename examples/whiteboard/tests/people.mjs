/** Shared code of the tests: the whiteboard's server, its pages, what they show, and actions on them. */

import { spawn } from "node:child_process"
import { mkdtemp, readFile, rm, writeFile } from "node:fs/promises"
import { tmpdir } from "node:os"
import { join } from "node:path"
import { createInterface } from "node:readline"
import { fileURLToPath } from "node:url"
import { Room } from "../../../clients/js/grace.js"
import { expectEqual, waitUntil } from "../../../clients/js/tests/checks.js"
import { WebSocket } from "../../../clients/js/tests/websocket.js"
import { CONTROL } from "./chromium.mjs"

export const RUN = fileURLToPath(new URL("../run", import.meta.url))
export const PICTURES = process.env.PICTURES ?? fileURLToPath(new URL("../out", import.meta.url))
// The versions that a page shows: object, letter, whether it is picked, and its accessible name.
export const VERSIONS = `[...document.querySelectorAll(".version")].map((one) =>
  [one.dataset.object, one.dataset.letter, one.classList.contains("picked"), one.getAttribute("aria-label")])`
export const COUNT = `document.querySelectorAll(".version").length`
// The place of each body on the drawing, in whole units, and its colour, by object and letter.
export const BODIES = `Object.fromEntries([...document.querySelectorAll(".version")].map((one) => {
  const body = one.querySelector(".body"), box = body.getBBox()
  const fill = body.getAttribute("fill") ?? body.style.stroke
  return [one.dataset.object + one.dataset.letter, [fill, ...[box.x, box.y, box.width, box.height].map(Math.round)]]
}))`
export const CARDS = `[...document.querySelectorAll(".card")].map((card) => [card.querySelector("strong").textContent,
  [...card.querySelectorAll("mark")].map((mark) => mark.textContent), card.classList.contains("picked")])`
export const STATE = `document.getElementById("state").textContent`
// The panel: its heading, the objects in its list, and its notice of a deletion.
export const HEADING = `document.querySelector("#panel h2").textContent`
export const LIST = `[...document.querySelectorAll("#panel .list button")].map((one) => one.textContent)`
export const NOTICE = `document.querySelector("#panel .notice")?.innerText.replace(/\\s+/g, " ") ?? null`

/** The numbers of passed and failed steps. */
export const counts = { passed: 0, failed: 0 }

/** Starts the whiteboard's server with its room, as a process group. Returns it with its address. */
export async function serve(...words) {
  const given = words.length > 0 ? words : ["--in-memory"]
  const ports = given.includes("--port") ? [] : ["--port", "0"]
  const options = { stdio: ["ignore", "pipe", "inherit"], detached: true }
  const server = spawn(RUN, ["people", "--sessions", "50", ...ports, ...given], options)
  const lines = createInterface({ input: server.stdout })
  const line = await new Promise((tell, fail) => {
    lines.on("line", (words) => words.startsWith("open ") && tell(words))
    server.once("close", () => fail(new Error("the whiteboard's server ended")))
  })
  return { server, address: /http:\S+/.exec(line)[0] }
}

/** Returns the page's address, with the server's. */
export const pageOf = async (address) =>
  new URL((await fetch(address, { redirect: "manual" })).headers.get("Location"), address)

/** Connects a client beside the pages. Its record shows what they did. */
export async function watch(address) {
  const server = (await pageOf(address)).searchParams.get("server")
  const room = new Room(server, "people", { connect: (it) => new WebSocket(it) })
  await waitUntil("a client beside the pages", () => room.state === "open")
  return room
}

/**
 * Returns what an action adds to the record, each entry as its word and attributes. There may be more entries than
 * expected.
 */
export async function added(room, count, act) {
  // Earlier changes have arrived by then.
  await new Promise((resolve) => setTimeout(resolve, 200))
  const start = room.record.length
  await act()
  await waitUntil("the entries", () => room.record.length >= start + count)
  await new Promise((resolve) => setTimeout(resolve, 400))
  return room.record.slice(start).map(([word, ...rest]) => (word === "drop" ? [word] : [word, rest.at(-1)]))
}

/** Runs one step. The next step continues from its state. */
export async function step(name, act) {
  const start = performance.now()
  const seconds = () => `${((performance.now() - start) / 1000).toFixed(1)} s`
  try {
    await act()
    console.log(`passed: ${name} (${seconds()})`)
    counts.passed += 1
  } catch (fault) {
    console.log(`failed: ${name}: ${fault.stack} (${seconds()})`)
    counts.failed += 1
  }
}

/** Waits until the page is in the room. The first time it then shows the part on which tests draw. */
export async function isOpen(page) {
  await page.waitUntil("the page is in the room", `document.getElementById("state")?.dataset.state === "open"`)
  if (page.isSet) return
  page.isSet = true
  await showAll(page)
}

// The part of the drawing on which tests draw.
const [WIDE, HIGH] = [1200, 800]
const ZOOM_PER_PIXEL = 0.002

/** Zooms and moves the view by the wheel, until all of that part is in the window. */
async function showAll(page) {
  const middle = await page.middleOf("#board")
  const by = await page.look(`(() => {
    const { clientWidth, clientHeight } = document.getElementById("board")
    return Math.min(clientWidth / ${WIDE}, clientHeight / ${HIGH}, 1) / document.getElementById("shapes").getCTM().a
  })()`)
  await page.wheel(middle, 0, -Math.log(by) / ZOOM_PER_PIXEL, CONTROL)
  const [x, y] = await onScreen(page, [WIDE / 2, HIGH / 2])
  await page.wheel(middle, x - middle[0], y - middle[1])
}

/** Draws by the mouse from one place of the drawing to another, in its units. */
export async function draw(page, tool, from, to) {
  await page.click(`[data-tool="${tool}"]`)
  await page.drag(await onScreen(page, from), await onScreen(page, to))
}

/** Takes the pen. Returns what draws with it along these places of the drawing. */
export async function readyStroke(page, places) {
  await page.click('[data-tool="pen"]')
  const onPage = []
  for (const place of places) onPage.push(await onScreen(page, place))
  return () => page.dragAlong(onPage)
}

/** Draws with the pen along these places of the drawing. */
export async function stroke(page, places) {
  const drawIt = await readyStroke(page, places)
  await drawIt()
}

/** Returns the screen position of a place of the drawing. */
export function onScreen(page, [x, y]) {
  return page.look(`(() => {
    const place = new DOMPoint(${x}, ${y}).matrixTransform(document.getElementById("shapes").getScreenCTM())
    return [place.x, place.y]
  })()`)
}

/** Waits longer than news takes to a page: a person does not overwrite what the page has not shown. */
export const waitForNews = () => new Promise((resolve) => setTimeout(resolve, 1500))

/** Presses the tab key until the expression is true. */
export async function tabTo(page, expression) {
  for (let tries = 0; tries < 40; tries++) {
    if (await page.look(expression)) return
    await page.key("Tab")
  }
  throw new Error(`not within 40 tabs: ${expression}`)
}

/** Returns the number of objects drawn. */
export const objectsOf = async (page) => new Set((await page.look(VERSIONS)).map(([object]) => object)).size

/** All people drag the element of a selector concurrently: each makes a version. Returns its object. */
export async function allDrag(pages, selector, steps) {
  const [first] = pages
  const object = await first.look(`document.querySelector('${selector}').dataset.object`)
  const from = await first.middleOf(`${selector} .body`)
  // The button of a message may lie over it for some seconds.
  const isFree = `document.elementFromPoint(${from}).closest(".version")?.dataset.object === "${object}"`
  for (const page of pages) await page.waitUntil("nothing lies over it", isFree)
  for (const page of pages) await page.press(from)
  for (const [place, page] of pages.entries()) {
    const to = [from[0] + steps[place][0], from[1] + steps[place][1]]
    await page.moveTo(to)
    await page.release(to)
  }
  const versions = `document.querySelectorAll('.version[data-object="${object}"]').length`
  for (const page of pages) await page.waitUntil("the versions", `${versions} === ${pages.length}`)
  return object
}

/** Ends the servers of a whiteboard and its room, if they run. */
export function endAll(server) {
  try {
    process.kill(-server.pid, "SIGKILL")
  } catch {
    // The process has already exited.
  }
}

export function faults(...pages) {
  for (const page of pages) expectEqual("faults in a page", page.faults, [])
}

/** Runs an action with two people at a new whiteboard and a client beside them, and ends it. */
export async function twoPeople(browser, act) {
  const { server, address } = await serve("--in-memory", "--sessions", "200")
  const pages = []
  let room = null
  try {
    for (let person = 0; person < 2; person++) {
      pages.push(await browser.open(address, 1240, 720))
      await isOpen(pages.at(-1))
    }
    room = await watch(address)
    await act({ first: pages[0], second: pages[1], room, address, server })
    await step("no page had a fault", () => faults(...pages))
  } finally {
    room?.close()
    for (const page of pages) await page.close()
    server.kill()
  }
}

/** The lines of a record with these entries. */
export const linesOf = (entries) => entries.map((entry) => `${JSON.stringify(entry)}\n`).join("")

/** Runs an action with a whiteboard whose room has a record of these lines, and its folder. Ends the whiteboard. */
export async function withRecord(record, act) {
  const folder = await mkdtemp(join(tmpdir(), "whiteboard-room-"))
  await writeFile(join(folder, "people.record"), record)
  const { server, address } = await serve("--keep", folder)
  try {
    await act(address, folder)
  } finally {
    endAll(server)
    await rm(folder, { recursive: true })
  }
}

/** Sends a signal to the room's server, to stop or continue it. */
export async function signalRoom(server, signal) {
  const [child] = (await readFile(`/proc/${server.pid}/task/${server.pid}/children`, "utf8")).trim().split(" ")
  process.kill(Number(child), signal)
}

/** The messages that the page shows for some seconds. */
export const MESSAGES = `[...document.querySelectorAll("#refusals p")].map((one) => one.textContent)`

/** All messages and notices since `noteMessages`, also those that are gone. */
export const TOLD = "told"

/** Notes what the page tells from now on. */
export const noteMessages = (page) => page.look(`(() => {
  window.told = []
  const note = (changes) => {
    for (const { addedNodes } of changes) for (const { textContent } of addedNodes) told.push(textContent)
  }
  for (const id of ["refusals", "kept", "reset"]) {
    new MutationObserver(note).observe(document.getElementById(id), { childList: true })
  }
})()`)
