/** What others draw is seen while they draw it, no name of a person covers another, and slow double clicks count. */

import { join } from "node:path"
import { expect, expectEqual } from "../../../clients/js/tests/checks.js"
import { readNote, writeNote } from "../notes.js"
import { COUNT, PICTURES, draw, onScreen, step, waitForNews } from "./people.mjs"
import { inOwnRooms } from "./rooms.mjs"

export async function live(browser) {
  await step("a sketch in a note", sketchNotes)
  await inOwnRooms(browser, {
    "a shape is seen while it is drawn": shapeWhileDrawn,
    "a stroke is seen while it is drawn": strokeWhileDrawn,
    "a drawing that is broken off": brokenOff,
    "the names of two who drag one shape": names,
    "a slow double click": slowDoubleClick,
  })
}

const NAME = "漢".repeat(40)
const FAR = 100000
const RECT = { kind: "rect", arrow: "", fill: "#e4572e", made: 16384, x: -FAR, y: -FAR, width: FAR, height: FAR }

/** A note has at most 256 bytes with any name, and what anybody writes does no harm. */
function sketchNotes() {
  const text = writeNote({ name: NAME, colour: 7, pointer: [-99999, -99999], sketch: RECT })
  expect(`the bytes of ${text}`, Buffer.byteLength(text) <= 256)
  expectEqual("a rectangle", readNote(text).sketch, RECT)
  const points = Array.from({ length: 2000 }, (_, place) => [place, 100 * Math.sin(place / 20)])
  for (const name of ["", NAME]) {
    const stroke = { kind: "pen", fill: "#3a86c8", points, made: 3 }
    const note = writeNote({ name, colour: 7, pointer: [-99999, -99999], sketch: stroke })
    expect(`the bytes of ${note}`, Buffer.byteLength(note) <= 256)
    const { sketch } = readNote(note)
    const [last] = sketch.strokes[0].slice(-1).map(([x, y]) => [sketch.x + x, sketch.y + y])
    expectEqual("where the pen is", last, points.at(-1).map(Math.round))
  }
  const short = { kind: "pen", fill: "#3a86c8", points: [[10, 20], [30, 20], [30, 60]], made: 3 }
  expectEqual("a short stroke", readNote(writeNote({ sketch: short })).sketch.strokes, [[[0, 0], [20, 0], [20, 40]]])
  const lists = [
    "7", "[]", `["pen"]`, `["pen","3a86c8",1,5]`, `["pen","3a86c8",1,5,6,7]`, `["pen","3a86c8",1,1e9,5]`,
    `["rect","3a86c8",1,1,1,1]`, `["rect","red",1,1,1,1,1]`, `["rect","3a86c8",-1,1,1,1,1]`,
    `["__proto__","3a86c8",1,1,1,1,1]`, `["rect","3a86c8",1,1,1,1,"1"]`,
  ]
  for (const list of lists) expectEqual(list, readNote(`{"w":${list}}`).sketch, null)
}

const LIVE = `[...document.querySelectorAll(".live .body")].map((one) => {
  const { x, y, width, height } = one.getBBox()
  return [one.localName, ...[x, y, width, height].map(Math.round)]
})`
const shows = (page, what, expected) =>
  page.waitUntil(what, `JSON.stringify(${LIVE}) === ${JSON.stringify(JSON.stringify(expected))}`)

/** Notes in each frame whether the page shows the sketch or the object that it became. */
const watchFrames = (page) => page.look(`void (function next() {
  window.seen ??= []
  seen.push(document.querySelectorAll(".live, .version").length)
  requestAnimationFrame(next)
})()`)

async function shapeWhileDrawn(room) {
  const [first, second] = [await room.open(), await room.open()]
  await first.waitUntil("the other", `document.querySelectorAll("#people .name").length === 2`)
  await first.click(`[data-tool="ellipse"]`)
  await first.press(await onScreen(first, [100, 200]))
  await first.moveTo(await onScreen(first, [200, 260]))
  await shows(second, "the beginning", [["ellipse", 100, 200, 100, 60]])
  await first.moveTo(await onScreen(first, [400, 500]))
  await shows(second, "more of it", [["ellipse", 100, 200, 300, 300]])
  await second.picture(join(PICTURES, "live-shape.png"))
  expectEqual("objects meanwhile", await second.look(COUNT), 0)
  await watchFrames(second)
  await first.release(await onScreen(first, [400, 500]))
  await second.waitUntil("the object alone", `${COUNT} === 1 && (${LIVE}).length === 0`)
  expectEqual("frames that showed neither", (await second.look("seen")).filter((count) => count === 0), [])
}

async function strokeWhileDrawn(room) {
  const [first, second] = [await room.open(), await room.open()]
  await first.waitUntil("the other", `document.querySelectorAll("#people .name").length === 2`)
  await first.click(`[data-tool="pen"]`)
  await first.press(await onScreen(first, [100, 200]))
  for (const place of [[300, 200], [300, 400]]) await first.mouse("mouseMoved", await onScreen(first, place))
  await shows(second, "the stroke", [["path", 100, 200, 200, 200]])
  // A long stroke: its end is where the pen is.
  const places = Array.from({ length: 150 }, (_, step) => [300 + 4 * step, 400 + 40 * Math.sin(step / 3)])
  for (const place of places) await first.mouse("mouseMoved", await onScreen(first, place))
  const [endX, endY] = places.at(-1).map(Math.round)
  const end = `document.querySelector(".live .body")?.getAttribute("d").split(" ").slice(-2).map(Number) ?? []`
  await second.waitUntil("its end", `(([x, y]) => Math.hypot(x - ${endX}, y - ${endY}) < 3)(${end})`)
  await second.picture(join(PICTURES, "live-stroke.png"))
  await first.release(await onScreen(first, places.at(-1)))
  await second.waitUntil("the object alone", `${COUNT} > 0 && (${LIVE}).length === 0`)
}

async function brokenOff(room) {
  const [first, second] = [await room.open(), await room.open()]
  await first.waitUntil("the other", `document.querySelectorAll("#people .name").length === 2`)
  await first.click(`[data-tool="rect"]`)
  await first.press(await onScreen(first, [100, 200]))
  await first.moveTo(await onScreen(first, [200, 260]))
  await shows(second, "the rectangle", [["rect", 100, 200, 100, 60]])
  await first.key("Escape")
  await shows(second, "nothing", [])
  expectEqual("objects", await second.look(COUNT), 0)
}

async function names(room) {
  const pages = [await room.open(), await room.open(), await room.open()]
  const [first, second, third] = pages
  await draw(first, "rect", [200, 200], [400, 300])
  await third.waitUntil("the rectangle", `${COUNT} === 1`)
  await second.waitUntil("the rectangle", `${COUNT} === 1`)
  await first.key("Escape")
  await waitForNews()
  const middle = [300, 250]
  for (const page of [first, second]) await page.press(await onScreen(page, middle))
  const boxes = `[...document.querySelectorAll(".hold span")].map((one) => {
    const { x, y, width, height } = one.getBoundingClientRect()
    return { x, y, width, height }
  })`
  // The two drag it to places of which one is a little below the other.
  for (const lower of [0, 8, 16, 24, 32]) {
    await first.moveTo(await onScreen(first, [500, 400 + lower]))
    await second.moveTo(await onScreen(second, [505, 400]))
    await third.waitUntil("both drags", `document.querySelectorAll(".ghost").length === 2`)
    await new Promise((resolve) => setTimeout(resolve, 400))
    const [one, other] = await third.look(boxes)
    const isApart = one.y + one.height <= other.y + 1 || other.y + other.height <= one.y + 1
    expect(`the names are apart, ${lower} units lower: ${JSON.stringify([one, other])}`, isApart)
  }
  await third.picture(join(PICTURES, "two-drags.png"))
  for (const page of [first, second]) {
    await page.key("Escape")
    await page.release(await onScreen(page, [500, 400]))
  }
}

/** The browser counts the presses of a double click by the time that the user has set. */
async function slowDoubleClick(room) {
  const page = await room.open()
  await draw(page, "rect", [200, 200], [400, 300])
  const place = await onScreen(page, [300, 250])
  await page.mouse("mouseMoved", place)
  for (const count of [1, 2]) {
    await page.mouse("mousePressed", place, count)
    await page.mouse("mouseReleased", place, count)
    await new Promise((resolve) => setTimeout(resolve, 700))
  }
  expectEqual("the field", await page.look(`document.activeElement.tagName`), "TEXTAREA")
  await page.key("Escape")
  for (const count of [1, 1]) {
    await page.mouse("mousePressed", place, count)
    await page.mouse("mouseReleased", place, count)
    await new Promise((resolve) => setTimeout(resolve, 700))
  }
  expectEqual("two clicks", await page.look(`document.activeElement.tagName`), "g")
}
