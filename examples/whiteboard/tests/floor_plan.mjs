/**
 * Two people draw a floor plan in two browsers: walls, doors, names of rooms, furniture and its copies, alignment,
 * colours, measure lines and a legend. Each does what somebody would who knows other whiteboards.
 */

import { join } from "node:path"
import { expect, expectEqual } from "../../../clients/js/tests/checks.js"
import { ALT, CONTROL, Chromium, SHIFT } from "./chromium.mjs"
import { BODIES, COUNT, MESSAGES, PICTURES, endAll, faults, isOpen, onScreen, serve, step } from "./people.mjs"

const INK = '[data-colour="#1d2733"]'
const [GREEN, BLUE, YELLOW] = ['[data-colour="#4c9f70"]', '[data-colour="#3a86c8"]', '[data-colour="#f2b134"]']

export async function floorPlan() {
  const { server, address } = await serve("--in-memory")
  const browsers = [await Chromium.start(), await Chromium.start()]
  try {
    const [anna, ben] = await Promise.all(browsers.map((browser) => browser.open(address, 1366, 768)))
    for (const page of [anna, ben]) await isOpen(page)
    await step("names of the people", () => names(anna, ben))
    await step("walls and doors", () => walls(anna, ben))
    await step("names of the rooms", () => rooms(anna, ben))
    await step("furniture and its copies", () => furniture(anna, ben))
    await step("furniture is aligned", () => alignment(anna, ben))
    await step("measure lines", () => measures(anna, ben))
    await step("a legend", () => legend(anna, ben))
    await step("both have the plan, and saw no message", () => same(anna, ben))
  } finally {
    for (const browser of browsers) await browser.end()
    endAll(server)
  }
}

async function names(anna, ben) {
  for (const [page, name] of [[anna, "Anna"], [ben, "Ben"]]) {
    await page.click("#own-name input")
    await page.write(name)
    await page.key("Enter")
  }
  const people = `[...document.querySelectorAll("#people .name")].map((one) => one.textContent).join()`
  await anna.waitUntil("Ben", `(${people}).includes("Ben")`)
}

const drag = async (page, from, to) => page.drag(await onScreen(page, from), await onScreen(page, to))

async function press(page, place) {
  const at = await onScreen(page, place)
  await page.press(at)
  await page.release(at)
}

/** Draws with a tool, by its key. */
async function drawn(page, key, from, to) {
  await page.key(key)
  await drag(page, from, to)
}

async function seen(page, count) {
  await page.waitUntil(`${count} objects`, `new Set([...document.querySelectorAll(".version")].map((one) =>
    one.dataset.object)).size === ${count}`)
}

const picture = (page, name) => page.picture(join(PICTURES, `floor-plan-${name}.png`))

async function walls(anna, ben) {
  await anna.click(INK)
  await anna.key("r")
  for (const word of ["no-fill", "outline-#1d2733", "thickness-thick"]) await anna.click(`[data-focus="${word}"]`)
  await drag(anna, [140, 100], [860, 620])
  await drawn(anna, "l", [500, 100], [500, 620])
  await drawn(anna, "l", [500, 380], [860, 380])
  await seen(ben, 3)
  const ends = `[...document.querySelectorAll("line.body")].map((one) =>
    ["x1", "y1", "x2", "y2"].map((key) => Number(one.getAttribute(key))))`
  expectEqual("the inner walls are where they were drawn", await ben.look(ends),
    [[500, 100, 500, 620], [500, 380, 860, 380]])
  // A door: a gap in the wall in the paper's colour is not possible, so the leaf stands open beside it.
  await anna.key("Escape")
  await anna.click('[data-colour="#e4572e"]')
  await anna.key("l")
  await anna.click('[data-focus="thickness-medium"]')
  await anna.withKeys(SHIFT, () => drag(anna, [500, 240], [560, 298]))
  await drawn(anna, "l", [680, 380], [680, 310])
  await seen(ben, 5)
  await anna.key("Escape")
  await picture(anna, "walls")
}

async function rooms(anna, ben) {
  for (const page of [anna, ben]) await page.click(INK)
  const write = async (page, place, name) => {
    await page.doubleClick(await onScreen(page, place))
    await page.write(name)
    if (name === "Kitchen") await picture(page, "writing")
    await page.key("Escape")
  }
  await write(anna, [250, 330], "Living room")
  await write(ben, [620, 200], "Kitchen")
  await write(ben, [620, 520], "Bedroom")
  for (const page of [anna, ben]) await seen(page, 8)
  const texts = `[...document.querySelectorAll(".version text")].map((one) => one.textContent).sort().join()`
  await anna.waitUntil("the names", `${texts} === "Bedroom,Kitchen,Living room"`)
}

async function furniture(anna, ben) {
  await anna.key("Escape")
  await anna.click(GREEN)
  await drawn(anna, "r", [180, 450], [230, 500])
  for (let copies = 0; copies < 3; copies++) await anna.key("d", CONTROL)
  await ben.key("Escape")
  await ben.click(BLUE)
  await drawn(ben, "r", [740, 420], [840, 590])
  await ben.key("Enter")
  await ben.write("Bed")
  await ben.key("Escape")
  await ben.key("Escape")
  await ben.click(YELLOW)
  await drawn(ben, "o", [560, 130], [640, 180])
  await ben.key("c", CONTROL)
  await ben.key("v", CONTROL)
  await drag(ben, [620, 175], [720, 330])
  for (const page of [anna, ben]) await seen(page, 15)
  await picture(ben, "furniture")
}

async function alignment(anna, ben) {
  await anna.key("Escape")
  await drag(anna, [165, 435], [330, 600])
  expectEqual("what is selected", await anna.look(`document.querySelector("#panel h2").textContent`), "4 objects")
  await anna.click('[data-focus="align-bottom"]')
  await anna.key("Escape")
  // The last one to the other side of the room, in line with the others.
  await drag(anna, [265, 535], [425, 537])
  await anna.key("Escape")
  await drag(anna, [165, 435], [490, 600])
  await anna.click('[data-focus="align-across"]')
  await picture(anna, "aligned")
  const chairs = `Object.values(${BODIES}).filter(([fill]) => fill === "#4c9f70").map(([, x, y]) => [x, y])
    .sort(([one], [other]) => one - other)`
  await ben.waitUntil("the chairs in a row", `new Set(${chairs}.map(([, y]) => y)).size === 1`)
  const gaps = await ben.look(`${chairs}.map(([x], place, all) => (place === 0 ? 0 : x - all[place - 1][0])).slice(1)`)
  expect(`the gaps ${gaps}`, Math.max(...gaps) - Math.min(...gaps) <= 1 && gaps[0] > 50)
}

async function measures(anna, ben) {
  await ben.key("Escape")
  await ben.click(INK)
  await ben.key("a")
  await ben.click('[data-focus="arrow-both"]')
  await ben.click('[data-focus="thickness-thin"]')
  await ben.withKeys(SHIFT, () => drag(ben, [140, 670], [860, 673]))
  await ben.key("Enter")
  await ben.write("8.40 m")
  await ben.key("Escape")
  await ben.key("a")
  await ben.withKeys(SHIFT, () => drag(ben, [80, 100], [82, 620]))
  await ben.key("F2")
  await ben.write("6.10 m")
  await ben.key("Escape")
  await ben.key("Escape")
  await seen(anna, 17)
  const sizes = `[...document.querySelectorAll('.version[aria-label^="Double arrow"] text')]
    .map((one) => one.getAttribute("font-size")).join()`
  await anna.waitUntil("their letters", `${sizes} === "20,20"`)
  await picture(anna, "measured")
}

async function legend(anna, ben) {
  await anna.key("Escape")
  await anna.key("r")
  await anna.click('[data-focus="no-fill"]')
  await anna.click('[data-focus="thickness-thin"]')
  await drag(anna, [900, 100], [1090, 260])
  await anna.key("Escape")
  await anna.click(INK)
  await anna.key("t")
  await press(anna, [965, 150])
  await anna.write("Chair")
  await anna.key("Enter")
  await anna.key("Enter")
  await anna.write("Bed")
  await press(anna, [1000, 500])
  await anna.key("Escape")
  for (const [colour, y] of [[GREEN, 135], [BLUE, 185]]) {
    await anna.click(colour)
    await anna.key("r")
    await anna.click('[data-focus="filled"]')
    await anna.withKeys(ALT, () => drag(anna, [920, y], [945, y + 25]))
    await anna.key("Escape")
  }
  // The legend is one group, and moves as one.
  await drag(anna, [890, 90], [1100, 270])
  await anna.key("g", CONTROL)
  await anna.key("Escape")
  await drag(anna, [932, 147], [932, 187])
  await seen(ben, 21)
  await anna.key("Escape")
  await anna.key("Escape")
  await picture(anna, "whole")
}

async function same(anna, ben) {
  for (const page of [anna, ben]) {
    await page.waitUntil("it is saved", `document.getElementById("state").textContent === "Connected."`)
    expectEqual("messages", await page.look(MESSAGES), [])
  }
  await anna.waitUntil("one version of each object", `${COUNT} === 21`)
  expectEqual("what both show", await anna.look(BODIES), await ben.look(BODIES))
  faults(anna, ben)
}
