/** A room that is renewed: the pages go on in the next one. */

import { join } from "node:path"
import { expectEqual, waitUntil } from "../../../clients/js/tests/checks.js"
import { startRenewingServer } from "../../../clients/js/tests/renewing_port.js"
import { CONTROL } from "./chromium.mjs"
import {
  BODIES, COUNT, HEADING, MESSAGES, PICTURES, STATE, draw, endAll, faults, isOpen, onScreen, pageOf, serve, step,
} from "./people.mjs"

const UNDO = ["z", CONTROL]
const GOES_ON = "This drawing goes on in a new room, under the same link."
const PLACES = `[...document.querySelectorAll(".version .body")]
  .map((body) => body.getBBox()).map(({ x, y }) => [x, y])`

export async function renewing(browser) {
  const whiteboard = await serve()
  const { server, address, close } = await startRenewingServer()
  const page = await pageOf(whiteboard.address)
  page.searchParams.set("server", address)
  page.searchParams.set("room", "r")
  const pages = []
  try {
    for (let person = 0; person < 2; person++) {
      pages.push(await browser.open(page.href, 1240, 720))
      await isOpen(pages[person])
    }
    const [first, second] = pages
    await step("a room that is renewed", () => renewed(first, second, server, page.href))
    await step("steps of before a renewal", () => undone(first, second, server))
    await step("work that was not sent at a renewal", () => unsent(first, second, server))
    await step("work that was left behind", () => leftBehind(first, server))
    await step("no page had a fault", () => faults(...pages))
  } finally {
    for (const one of pages) await one.close()
    close()
    endAll(whiteboard.server)
  }
}

/** Both pages go on, show the same, keep what is selected, and tell nothing. The address stays. */
async function renewed(first, second, server, href) {
  await draw(first, "line", [30, 30], [90, 60])
  await first.key("Delete")
  await draw(first, "rect", [100, 100], [200, 180])
  await draw(first, "ellipse", [300, 100], [400, 180])
  for (const page of [first, second]) await page.waitUntil("both objects", `${COUNT} === 2`)
  const places = await second.look(PLACES)
  server.renew()
  await waitUntil("both are in the new room", () => server.newest.sites.size === 2)
  for (const page of [first, second]) await isOpen(page)
  for (const page of [first, second]) expectEqual("what it tells", await page.look(MESSAGES), [])
  await first.picture(join(PICTURES, "renewed.png"))
  expectEqual("the record", server.newest.name, "r.2")
  expectEqual("what is shown", await second.look(PLACES), places)
  expectEqual("what both show", await first.look(BODIES), await second.look(BODIES))
  expectEqual("the address", await first.look("location.href"), href)
  expectEqual("what is selected", await first.look(HEADING), "Ellipse")
  await first.key("ArrowRight")
  await second.waitUntil("the move", `${PLACES}.some(([x]) => x === 310)`)
}

/** A step of before is undone if its values are still there. */
async function undone(first, second, server) {
  await first.key(...UNDO)
  await second.waitUntil("the move is undone", `${PLACES}.some(([x]) => x === 300)`)
  await second.click('.version[aria-label="Rectangle"] .body')
  await second.click('[data-colour="#4c9f70"]')
  await first.waitUntil("the colour",
    `document.querySelector('.version[aria-label="Rectangle"] .body').getAttribute("fill") === "#4c9f70"`)
  await first.key(...UNDO)
  await second.waitUntil("the ellipse is undone", `${COUNT} === 1`)
  await first.key(...UNDO)
  await first.waitUntil("why the rectangle stays",
    `${MESSAGES}.includes("This can't be undone: somebody has changed it since.")`)
  expectEqual("what is left", await second.look(COUNT), 1)
  server.renew()
  for (const page of [first, second]) await isOpen(page)
  await second.key(...UNDO)
  await first.waitUntil("the other's colour is undone",
    `document.querySelector('.version[aria-label="Rectangle"] .body').getAttribute("fill") === "#3a86c8"`)
}

/** What conflicts with others' last changes becomes an object of its own, and the page says so. */
async function unsent(first, second, server) {
  const { name } = server.newest
  server.before = (text) => {
    if (!text.startsWith('["put"')) return
    server.before = () => {}
    const site = server.newest.record.filter(([word]) => word === "join").length + 1
    server.add(["join", site])
    server.add(["put", [site, 1], server.newest.drawing.seen(), [1, 1], [], [["x", 700], ["y", 500]]])
    server.renew()
  }
  await first.drag(await onScreen(first, [150, 140]), await onScreen(first, [250, 240]))
  await first.waitUntil("both", `${COUNT} === 2`)
  const words = `${GOES_ON} One of your changes met one of somebody else's, and is a new object there.`
  await first.waitUntil("the message", `${MESSAGES}.includes(${JSON.stringify(words)})`)
  await second.waitUntil("both", `${COUNT} === 2`)
  expectEqual("where they are", (await second.look(PLACES)).sort(), [[200, 200], [700, 500]])
  expectEqual("the rooms", [name, server.newest.name], ["r.3", "r.4"])
  await first.picture(join(PICTURES, "renewed-beside.png"))
}

/** Where the old room is closed, the page keeps what it had not sent. */
async function leftBehind(first, server) {
  await first.waitUntil("it is open", `document.getElementById("state").dataset.state === "open"`)
  const shown = await first.look(COUNT)
  server.isDown = true
  server.cut()
  await first.waitUntil("the loss", `document.getElementById("state").dataset.state !== "open"`)
  await draw(first, "rect", [500, 100], [560, 140])
  await first.drag(await onScreen(first, [250, 240]), await onScreen(first, [270, 260]))
  await first.waitUntil("both wait", `/2 changes are not saved yet/.test(${STATE})`)
  server.renew()
  server.renew()
  server.isDown = false
  await first.waitUntil("the notices", `document.querySelectorAll("#kept .notice").length === 2`)
  await isOpen(first)
  await first.picture(join(PICTURES, "left-behind.png"))
  expectEqual("what is shown", await first.look(COUNT), shown)
  const record = `document.querySelector('#reset a[download$=".record"]').href`
  const text = await first.look(`fetch(${record}).then((it) => it.text())`)
  const words = text.split("\n").slice(-3).map((line) => line.slice(0, 6))
  expectEqual("the last lines of the file", words, ['["new"', '["put"', ""])
  await first.click("#kept .notice [data-focus='make-kept']")
  await first.waitUntil("it is there", `${COUNT} === ${shown + 1}`)
}
