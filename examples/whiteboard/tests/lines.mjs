/** Lines: their two ends, arrows, and ends that stick to shapes. */

import { join } from "node:path"
import { expect, expectEqual, waitUntil } from "../../../clients/js/tests/checks.js"
import { startRenewingServer } from "../../../clients/js/tests/renewing_port.js"
import { ALT, CONTROL, SHIFT } from "./chromium.mjs"
import {
  HEADING, PICTURES, added, draw, endAll, faults, isOpen, onScreen, pageOf, serve, step, twoPeople,
} from "./people.mjs"

export async function lines(browser) {
  await twoPeople(browser, async ({ first, second, room }) => {
    await step("both ends of a line", () => ends(first, second, room))
    await step("arrows", () => arrows(first, second, room))
  })
  await twoPeople(browser, async ({ first, second, room }) => {
    await step("an arrow between two shapes", () => between(first, second, room))
    await step("it follows them", () => follows(first, second, room))
    await step("an end is released", () => released(first, second, room))
    await step("a copy with its shapes", () => copied(first, room))
    await step("a shape that is deleted", () => deleted(first, second, room))
  })
  await twoPeople(browser, async ({ first, room }) => {
    await step("lines in a room of a plan", () => walls(first, room))
    await step("a line within a shape that has a fill", () => within(first, room))
    await step("a text on a line", () => textOnLine(first, room))
  })
  await inRenewedRoom(browser)
}

const drag = (page, room, from, to) => added(room, 1, async () =>
  page.drag(await onScreen(page, from), await onScreen(page, to)))

async function ends(first, second, room) {
  await draw(first, "line", [200, 200], [400, 300])
  expectEqual("the start", await drag(first, room, [200, 200], [150, 250]),
    [["put", [["x", 150], ["y", 250], ["width", 250], ["height", 50]]]])
  expectEqual("the end", await drag(first, room, [400, 300], [500, 320]),
    [["put", [["width", 350], ["height", 70]]]])
  expectEqual("past the other end", await drag(first, room, [150, 250], [600, 300]),
    [["put", [["x", 600], ["y", 300], ["width", -100], ["height", 20]]]])
  const ends = `["x1", "y1", "x2", "y2"].map((key) => document.querySelector(".version line.body").getAttribute(key))`
  await second.waitUntil("what the other sees", `String(${ends}) === "600,300,500,320"`)
  let changes = []
  await first.withKeys(SHIFT, async () => (changes = await drag(first, room, [600, 300], [700, 330])))
  expectEqual("with Shift", changes, [["put", [["x", 700], ["y", 320], ["width", -200], ["height", 0]]]])
  for (let back = 0; back < 4; back++) await first.key("z", CONTROL)
  await second.waitUntil("all is undone", `String(${ends}) === "200,200,400,300"`)
  await first.key("Escape")
}

async function arrows(first, second, room) {
  await first.key("a")
  expectEqual("an arrow", await drag(first, room, [200, 500], [400, 500]), [["new",
    [["x", 200], ["y", 500], ["width", 200], ["height", 0], ["fill", "#3a86c8"], ["name", ""], ["arrow", "end"]]]])
  expectEqual("its name", await first.look(HEADING), "Arrow")
  const path = `document.querySelector(".version path.body")?.getAttribute("d") ?? ""`
  await second.waitUntil("the arrow", `${path} !== ""`)
  const heads = async () => (await second.look(path)).split("M ").slice(2).map((head) => head.split(" L ")[1])
  expectEqual("the tips", await heads(), ["400,500"])
  await first.picture(join(PICTURES, "arrow.png"))
  const choose = (value) => added(room, 1, () => first.click(`[data-focus="arrow-${value}"]`))
  expectEqual("both ends", await choose("both"), [["put", [["arrow", "both"]]]])
  await second.waitUntil("two tips", `${path}.split("M ").length === 4`)
  expectEqual("the tips then", (await heads()).map((tip) => tip.trim()).sort(), ["200,500", "400,500"])
  expectEqual("none", await choose(""), [["put", [["arrow", ""]]]])
  await second.waitUntil("a line", `${path} === ""`)
}

// The ends of the arrow, as they are drawn.
const ENDS = `(document.querySelector('.version[aria-label="Arrow"] .body')?.getAttribute("d") ?? "")
  .split(" M ")[0].match(/-?[0-9.]+/g)?.map(Number) ?? []`
const endsAre = (ends) => `String(${ENDS}) === "${ends}"`

/** The arrow ends at the edges of the shapes, and both shapes have a text to which it refers. */
async function between(first, second, room) {
  await draw(first, "rect", [100, 100], [200, 200])
  await draw(first, "ellipse", [500, 100], [600, 200])
  await first.key("a")
  const [[word, pairs], ...marks] = await added(room, 3, async () =>
    first.drag(await onScreen(first, [150, 150]), await onScreen(first, [540, 130])))
  const arrow = Object.fromEntries(pairs)
  expectEqual("the arrow", [word, ["x", "y", "width", "height"].map((key) => arrow[key])], ["new", [200, 150, 300, 0]])
  expectEqual("what it refers to", marks, [["put", [["id", arrow.from]]], ["put", [["id", arrow.to]]]])
  for (const page of [first, second]) await page.waitUntil("the arrow", endsAre([200, 150, 500, 150]))
  await second.picture(join(PICTURES, "connected.png"))
}

/** A shape that is moved takes the arrow along, also while it is dragged. The arrow itself gets no change. */
async function follows(first, second, room) {
  const from = await onScreen(second, [150, 150])
  const to = await onScreen(second, [150, 550])
  const moved = await added(room, 1, async () => {
    await second.press(from)
    await second.moveTo(to)
    await second.frame()
    const [, y] = await second.look(ENDS)
    expect(`the start meanwhile: ${y}`, y > 400)
    await second.release(to)
  })
  expectEqual("the changes", moved, [["put", [["x", 100], ["y", 500]]]])
  // From (150, 550) to (550, 150): the corner of the rectangle, and 50 along the diagonal at the ellipse.
  for (const page of [first, second]) await page.waitUntil("the arrow", endsAre([200, 500, 515, 185]))
  expectEqual("undone", await added(room, 1, () => second.key("z", CONTROL)), [["put", [["x", 100], ["y", 100]]]])
  for (const page of [first, second]) await page.waitUntil("the arrow", endsAre([200, 150, 500, 150]))
  await second.key("Escape")
}

async function clickAt(page, place) {
  const at = await onScreen(page, place)
  await page.press(at)
  await page.release(at)
}

/** The end is dragged away, back to the shape with Alt, and back without. */
async function released(first, second, room) {
  await clickAt(first, [350, 150])
  const end = (from, to) => drag(first, room, from, to)
  expectEqual("away", await end([500, 150], [500, 400]),
    [["put", [["x", 200], ["y", 150], ["width", 300], ["height", 250], ["to", ""]]]])
  await second.waitUntil("the arrow", `(${ENDS}).slice(2).join() === "500,400"`)
  let changes = []
  await first.withKeys(ALT, async () => (changes = await end([500, 400], [550, 150])))
  expectEqual("with Alt", changes.map(([, pairs]) => pairs.map(([key]) => key)), [["x", "y", "width", "height"]])
  const back = await end([550, 150], [560, 160])
  expectEqual("back", back.map(([, pairs]) => pairs.map(([key]) => key)), [["x", "y", "width", "height", "to"]])
  await second.waitUntil("the arrow", endsAre([200, 150, 500, 150]))
  expectEqual("a move of the arrow releases both", (await drag(first, room, [350, 150], [350, 350])),
    [["put", [["x", 200], ["y", 350], ["width", 300], ["height", 0], ["from", ""], ["to", ""]]]])
  await added(room, 1, () => first.key("z", CONTROL))
  await second.waitUntil("it sticks again", endsAre([200, 150, 500, 150]))
}

/** Copies of the shapes and of the arrow refer to each other. */
async function copied(first, room) {
  await first.key("a", CONTROL)
  const copies = (await added(room, 3, () => first.key("d", CONTROL))).map(([, pairs]) => Object.fromEntries(pairs))
  const [rect, ellipse, arrow] = copies
  expectEqual("what the arrow refers to", [arrow.from, arrow.to], [rect.id, ellipse.id])
  expect("texts of their own", rect.id !== ellipse.id && !room.objects().slice(0, 3).some((name) =>
    [rect.id, ellipse.id].includes(room.versions(name)[0].attributes.get("id"))))
  await added(room, 3, () => first.key("z", CONTROL))
  await first.key("Escape")
}

async function deleted(first, second, room) {
  await clickAt(first, [550, 150])
  await added(room, 1, () => first.key("Delete"))
  await second.waitUntil("the arrow stays", `(${ENDS}).length === 4`)
  await added(room, 1, () => first.key("z", CONTROL))
  await second.waitUntil("it sticks to the shape that is back", endsAre([200, 150, 500, 150]))
}

/** Draws with a tool. Returns the box of the new line, and to which of its ends shapes stick. */
async function lineOf(page, room, tool, from, to, modifiers = 0) {
  await page.key(tool)
  const places = [await onScreen(page, from), await onScreen(page, to)]
  const [[, pairs]] = await added(room, 1, () => page.withKeys(modifiers, () => page.drag(...places)))
  const values = new Map(pairs)
  return [["x", "y", "width", "height"].map((key) => values.get(key)), ["from", "to"].filter((key) => values.has(key))]
}

/** A line that begins on an outline stays where it was drawn: it is a wall. An arrow sticks, unless it leads inside. */
async function walls(first, room) {
  await first.key("r")
  await first.click('[data-focus="no-fill"]')
  await first.drag(await onScreen(first, [100, 100]), await onScreen(first, [700, 600]))
  const drawn = (...words) => lineOf(first, room, ...words)
  expectEqual("from wall to wall", await drawn("l", [400, 100], [400, 600]), [[400, 100, 0, 500], []])
  expectEqual("from a wall into the room", await drawn("l", [100, 350], [300, 350]), [[100, 350, 200, 0], []])
  expectEqual("from a wall outwards", await drawn("l", [700, 200], [760, 140]), [[700, 200, 60, -60], []])
  expectEqual("an arrow into the room", await drawn("a", [400, 100], [250, 250]), [[400, 100, -150, 150], []])
  expectEqual("an arrow out of it", (await drawn("a", [700, 350], [900, 350]))[1], ["from"])
  expectEqual("a level arrow, with Shift", await drawn("a", [700, 400], [900, 410], SHIFT), [[700, 400, 200, 0], []])
  await first.picture(join(PICTURES, "walls.png"))
}

async function within(first, room) {
  await first.key("r")
  await first.click('[data-focus="filled"]')
  await first.drag(await onScreen(first, [800, 450]), await onScreen(first, [1100, 650]))
  await first.key("r")
  await first.drag(await onScreen(first, [820, 470]), await onScreen(first, [860, 510]))
  await first.key("Escape")
  const drawn = (...words) => lineOf(first, room, ...words)
  expectEqual("from the smaller shape into the larger", (await drawn("a", [840, 490], [1000, 600]))[1], ["from"])
  expectEqual("from the larger into the smaller", (await drawn("a", [1000, 500], [840, 490]))[1], ["to"])
  expectEqual("out of both", (await drawn("l", [1000, 600], [1150, 600]))[1], ["from"])
}

/** A text on a line has the size of other texts, whatever the box of the line. */
async function textOnLine(first, room) {
  await lineOf(first, room, "l", [100, 700], [500, 700])
  await added(room, 1, async () => {
    await first.key("F2")
    await first.write("8.40 m")
    await first.key("Enter", CONTROL)
  })
  const letters = `document.querySelector('.version[aria-label^="Line “8.40 m”"] text')`
  expectEqual("the size of its letters", await first.look(`${letters}.getAttribute("font-size")`), "20")
  expectEqual("its lines", await first.look(`${letters}.querySelectorAll("tspan").length`), 1)
  await first.key("Escape")
  await first.picture(join(PICTURES, "text-on-line.png"))
}

/** In the next room objects have other names, and the arrow still sticks to its shapes. */
async function inRenewedRoom(browser) {
  const whiteboard = await serve()
  const { server, address, close } = await startRenewingServer()
  const link = await pageOf(whiteboard.address)
  link.searchParams.set("server", address)
  link.searchParams.set("room", "r")
  const page = await browser.open(link.href, 1240, 720)
  try {
    await isOpen(page)
    await step("an arrow in a renewed room", () => renewed(page, server))
    await step("the page had no fault", () => faults(page))
  } finally {
    await page.close()
    close()
    endAll(whiteboard.server)
  }
}

async function renewed(page, server) {
  await draw(page, "line", [30, 30], [90, 60])
  await page.key("Delete")
  await draw(page, "rect", [100, 100], [200, 200])
  await draw(page, "rect", [500, 100], [600, 200])
  await draw(page, "arrow", [150, 150], [550, 150])
  await page.waitUntil("the arrow", endsAre([200, 150, 500, 150]))
  server.renew()
  await waitUntil("it is in the new room", () => server.newest.sites.size === 1)
  await isOpen(page)
  await page.drag(await onScreen(page, [550, 180]), await onScreen(page, [550, 280]))
  await page.waitUntil("it follows", `(${ENDS})[3] > 150`)
}
