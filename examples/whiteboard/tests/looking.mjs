/** The view of a drawing: its position and scale, and all versions of an object. */

import { join } from "node:path"
import { expect, expectEqual, waitUntil } from "../../../clients/js/tests/checks.js"
import { CONTROL } from "./chromium.mjs"
import { COUNT, PICTURES, draw, isOpen, onScreen, step, twoPeople, watch } from "./people.mjs"

export const looking = (browser) => twoPeople(browser, async ({ first, second, room, address }) => {
  await step("the view moves and zooms", () => moveAndZoom(first, second))
  await step("marks of objects beyond the edge", () => edges(first, room))
  await step("all is seen by one press", () => fitAll(browser, first, address))
  await step("thirty versions side by side", () => thirtyVersions(first, room, address))
  await step("thirty versions at one place", () => thirtyAtOnePlace(first, room, address))
})

/** Returns the place of the first body in the window, in whole pixels. */
const BOX = `(() => {
  const { x, y, width, height } = document.querySelector(".version .body").getBoundingClientRect()
  return [x, y, width, height].map(Math.round)
})()`
const SCALE = `document.getElementById("scale").textContent`

/** Returns whether two lists of numbers are equal up to a rounding difference of one. */
function near(what, seen, wanted) {
  expect(`${what}: ${seen}, not ${wanted}`, seen.every((value, place) => Math.abs(value - wanted[place]) <= 1))
}

async function moveAndZoom(first, second) {
  await draw(first, "rect", [300, 200], [500, 320])
  await first.key("Escape")
  await second.waitUntil("the rectangle", `${COUNT} === 1`)
  const others = await second.look(BOX)
  const [x, y, width, height] = await first.look(BOX)
  const paper = [x + 300, y + 250]
  await first.wheel(paper, 30, 50)
  near("the wheel", await first.look(BOX), [x - 30, y - 50, width, height])
  await first.withSpace(() => first.drag(paper, [paper[0] + 30, paper[1] + 50]))
  near("a drag with the space bar", await first.look(BOX), [x, y, width, height])
  await first.wheel([x, y], 0, -Math.log(2) / 0.002, CONTROL)
  near("Ctrl and the wheel", await first.look(BOX), [x, y, 2 * width, 2 * height])
  await first.click("#zoom-out")
  const [, , smaller] = await first.look(BOX)
  near("the button", [smaller], [(2 * width) / 1.25])
  await first.key("+")
  near("the key", [(await first.look(BOX))[2]], [2 * width])
  await first.click("#scale")
  expectEqual("as large as it is", [await first.look(SCALE), (await first.look(BOX)).slice(2)], ["100 %", [200, 120]])
  await first.withTouch(async () => {
    const [left, top] = await first.look(BOX)
    await first.touch([[400, 300], [500, 300]], [[350, 340], [550, 340]])
    // The middle of the fingers is at 450 and moves down by 40; their distance doubles.
    near("two fingers", await first.look(BOX), [450 + 2 * (left - 450), 340 + 2 * (top - 300), 400, 240])
  })
  await first.press([40, 120])
  await first.release([40, 120])
  const [here] = await first.look(BOX)
  await first.key("ArrowRight")
  near("an arrow", [(await first.look(BOX))[0]], [here - 60])
  near("what the other sees", await second.look(BOX), others)
}

/** The marks at the edges show how many objects are beyond. A click shows the nearest. */
async function edges(first, room) {
  for (const [x, y] of [[5000, 400], [6000, 500], [-4000, 300], [500, -3000], [400, 9000]]) {
    room.create("rect", { x, y, width: 200, height: 120, fill: "#f2b134", name: "" })
  }
  await first.waitUntil("the objects", `${COUNT} === 6`)
  await first.key("0")
  await first.click('.version[aria-label="Rectangle"]')
  await first.key("Escape")
  await first.click("#scale")
  await first.waitUntil("marks", `document.querySelectorAll(".edge:not([hidden])").length > 0`)
  await goTo(first, [400, 260])
  const marks = `[...document.querySelectorAll(".edge:not([hidden])")].map((one) => [one.textContent, one.title])`
  expectEqual("the marks", await first.look(marks), [["← 1", "1 object to the left: show the nearest"],
    ["→ 2", "2 objects to the right: show the nearest"], ["↑ 1", "1 object above: show the nearest"],
    ["↓ 1", "1 object below: show the nearest"]])
  await first.picture(join(PICTURES, "edges.png"))
  await first.click(".edge.right")
  const seen = (x, y) => `(() => {
    const at = new DOMPoint(${x}, ${y}).matrixTransform(document.getElementById("shapes").getScreenCTM())
    return document.elementFromPoint(at.x, at.y)?.closest(".version") !== null
  })()`
  expect("the nearest is seen", await first.look(seen(5100, 460)))
  // From (5100, 460) the ones in the middle and the one above are farthest to the left, and (400, 9000) below.
  expectEqual("the marks then", (await first.look(marks)).map(([words]) => words), ["← 3", "→ 1", "↓ 1"])
}

/** Moves the view by the wheel until a place of the drawing is in its middle. */
async function goTo(page, place) {
  const [x, y] = await onScreen(page, place)
  const middle = await page.middleOf("#board")
  await page.wheel(middle, x - middle[0], y - middle[1])
}

/** The button shows all objects, as a newly opened page does. Tiny ones stay visible. */
async function fitAll(browser, first, address) {
  const inWindow = `(() => {
    const { left, right, top, bottom } = document.getElementById("board").getBoundingClientRect()
    return [...document.querySelectorAll(".version .body")].every((body) => {
      const box = body.getBoundingClientRect()
      return box.left >= left && box.right <= right && box.top >= top && box.bottom <= bottom
    })
  })()`
  expectEqual("before", await first.look(inWindow), false)
  await first.click("#fit-all")
  expectEqual("all is in the window", await first.look(inWindow), true)
  expectEqual("the marks", await first.look(`document.querySelectorAll(".edge:not([hidden])").length`), 0)
  const late = await browser.open(address, 1024, 700)
  await late.waitUntil("all", `${COUNT} === 6 && ${inWindow}`)
  const hint = `document.getElementById("hint").textContent`
  await late.waitUntil("the words", `${hint}.startsWith("This is the whole drawing. Press 1 for its actual size")`)
  await late.picture(join(PICTURES, "fit-all.png"))
  await late.close()
}

/**
 * All people move the same object concurrently, each to another place: each makes a version. Returns the object's name.
 */
async function versionsBy(people, room, address, y, attributesOf) {
  const { object } = room.create("rect", { x: 460, y, width: 160, height: 100, fill: "#3a86c8", name: "Quay" })
  const others = []
  for (let person = 0; person < people; person++) others.push(await watch(address))
  for (const other of others) await waitUntil("the object", () => other.has(object))
  const releases = others.map((other) => other.hold())
  others.forEach((other, person) => other.put(object, other.versions(object)[0], attributesOf(person)))
  for (const other of others) await other.settled()
  for (const release of releases) release()
  for (const other of others) other.close()
  return object
}

/** Tags do not overlap, and all are in the window. */
async function tagsAreApart(page, object) {
  const boxes = await page.look(`[...document.querySelectorAll('.tag[data-object="${object}"] circle')].map((one) => {
    const { x, y, width } = one.getBoundingClientRect()
    return [x, y, width]
  })`)
  const window = await page.look(`(() => {
    const { left, right, top, bottom } = document.getElementById("board").getBoundingClientRect()
    return [left, right, top, bottom]
  })()`)
  const isApart = ([x, y, width], [otherX, otherY]) => Math.hypot(x - otherX, y - otherY) >= width
  const pairs = boxes.flatMap((box, place) => boxes.slice(place + 1).map((other) => [box, other]))
  for (const [box, other] of pairs) expect("tags are apart", isApart(box, other))
  const [left, right, top, bottom] = window
  expect("tags are in the window", boxes.every(([x, y, width]) =>
    x >= left - 1 && x + width <= right + 1 && y >= top - 1 && y + width <= bottom + 1))
  return boxes.length
}

const ROWS = `[...document.querySelectorAll(".rows .card")].map((row) => row.querySelector("strong").textContent)`
const LETTERS = [..."ABCDEFGHIJKLMNOPQRSTUVWXYZ", "AA", "AB", "AC", "AD"]

async function thirtyVersions(first, room, address) {
  const object = await versionsBy(30, room, address, 1240, (person) =>
    ({ x: 380 + 40 * (person % 6), y: 1240 + 32 * Math.floor(person / 6) }))
  await first.waitUntil("all versions", `document.querySelectorAll('.version[data-object="${object}"]').length === 30`)
  await first.click("#scale")
  await goTo(first, [560, 1300])
  expectEqual("the tags", await tagsAreApart(first, object), 30)
  await first.click(`.tag[data-object="${object}"][data-letter="AC"] circle`)
  expectEqual("the rows", await first.look(ROWS), LETTERS)
  const picked = `document.querySelector(".rows .picked strong").textContent`
  expectEqual("what is picked", await first.look(picked), "AC")
  await first.picture(join(PICTURES, "thirty-versions.png"))
  await first.click('[data-focus="pick-D"]')
  expectEqual("what is picked then", await first.look(picked), "D")
  expectEqual("the tags then", await tagsAreApart(first, object), 30)
  await first.key("Escape")
}

async function thirtyAtOnePlace(first, room, address) {
  const colour = (person) => `#${(0x300000 + person * 0x05080a).toString(16)}`
  const attributesOf = (person) => ({ fill: colour(person), name: `Quay ${person + 1}` })
  const object = await versionsBy(30, room, address, 1900, attributesOf)
  await first.waitUntil("all versions", `document.querySelectorAll('.version[data-object="${object}"]').length === 30`)
  await goTo(first, [560, 1900])
  await first.click(`.tag[data-object="${object}"][data-letter="B"] circle`)
  expectEqual("the tags", await tagsAreApart(first, object), 30)
  const values = `[...document.querySelectorAll(".rows .card")].map((row) => row.querySelectorAll("mark").length)`
  expectEqual("what differs in each row", await first.look(values), Array(30).fill(2))
  await first.picture(join(PICTURES, "thirty-at-one-place.png"))
}
