/** A phone, fingers, dark mode and little motion. */

import { join } from "node:path"
import { expect, expectEqual } from "../../../clients/js/tests/checks.js"
import { BODIES, COUNT, PICTURES, allDrag, draw, onScreen, waitForNews } from "./people.mjs"
import { inOwnRooms } from "./rooms.mjs"

export const phone = (browser) => inOwnRooms(browser, {
  "a phone has the drawing first": drawingFirst,
  "the panel as a sheet": panelSheet,
  "what a finger hits": fingers,
  "a small phone and a phone on its side": otherScreens,
  "fields do not make a phone zoom": fields,
  "dark mode": dark,
  "little motion": still,
})

const [WIDTH, HEIGHT] = [390, 844]
const FINGER = 44

/** Opens a phone with a touch screen. */
async function openPhone(room, width = WIDTH, height = HEIGHT) {
  const page = await room.open(width, height, true)
  await page.ask("Emulation.setTouchEmulationEnabled", { enabled: true, maxTouchPoints: 2 })
  await page.reload()
  await page.waitUntil("the room", `document.getElementById("state").dataset.state === "open"`)
  return page
}

async function tap(page, [x, y]) {
  await page.ask("Input.dispatchTouchEvent", { type: "touchStart", touchPoints: [{ x, y }] })
  await page.ask("Input.dispatchTouchEvent", { type: "touchEnd", touchPoints: [] })
  await page.frame()
}

// A finger that is lifted without a rest has thrown something, and the browser takes its next tap as the end of that.
const REST_MILLISECONDS = 200

/** A drag of one finger, which rests at its end. */
async function drag(page, from, to) {
  const points = ([x, y]) => [{ x, y }]
  await page.ask("Input.dispatchTouchEvent", { type: "touchStart", touchPoints: points(from) })
  await page.ask("Input.dispatchTouchEvent", { type: "touchMove", touchPoints: points(to) })
  await new Promise((resolve) => setTimeout(resolve, REST_MILLISECONDS))
  await page.ask("Input.dispatchTouchEvent", { type: "touchMove", touchPoints: points(to) })
  await page.ask("Input.dispatchTouchEvent", { type: "touchEnd", touchPoints: [] })
  await page.frame()
}

const tapOn = async (page, selector) => tap(page, await page.middleOf(selector))

const boxOf = (page, selector) => page.look(`(() => {
  const { x, y, width, height } = document.querySelector('${selector}').getBoundingClientRect()
  return { x, y, width, height }
})()`)

const isWithin = (page, width, height) => page.look(
  `document.documentElement.scrollWidth <= ${width} && document.documentElement.scrollHeight <= ${height}`)

async function drawingFirst(room) {
  const page = await openPhone(room)
  const paper = await boxOf(page, "#window")
  expect(`two thirds of the height: ${paper.height}`, paper.height >= (2 / 3) * HEIGHT)
  expect("the whole width but an edge", paper.width >= WIDTH - 16)
  expect("nothing is outside the screen", await isWithin(page, WIDTH, HEIGHT))
  await page.picture(join(PICTURES, "phone.png"))
  await tapOn(page, `[data-tool="rect"]`)
  await drag(page, [60, 300], [200, 420])
  await page.waitUntil("a rectangle", `${COUNT} === 1`)
}

async function panelSheet(room) {
  const page = await openPhone(room)
  await tapOn(page, `[data-tool="rect"]`)
  await drag(page, [60, 200], [200, 320])
  await page.waitUntil("a rectangle", `${COUNT} === 1`)
  const isShown = `document.getElementById("panel").checkVisibility()`
  expectEqual("at first", await page.look(isShown), false)
  expectEqual("the button", await page.look(`document.getElementById("details").textContent`), "Rectangle")
  await tapOn(page, "#details")
  expectEqual("the sheet", await page.look(isShown), true)
  expect("the button is below it", (await boxOf(page, "#panel")).y + (await boxOf(page, "#panel")).height
    <= (await boxOf(page, "#details")).y)
  expect("the rectangle is above it", (await boxOf(page, ".version")).y < (await boxOf(page, "#panel")).y)
  await page.picture(join(PICTURES, "phone-panel.png"))
  await tapOn(page, "#panel .delete")
  await page.waitUntil("no rectangle", `${COUNT} === 0`)
  await tapOn(page, "#details")
  expectEqual("after another tap", await page.look(isShown), false)
}

/** The buttons and links of the page that are smaller than a finger. */
const SMALL = `[...document.querySelectorAll("button, summary, a, label:has(input), .tag .reach, .handle.reach")]
  .filter((one) => one.checkVisibility()).map((one) => [one.id || one.textContent.trim() || one.getAttribute("class"),
    ...["width", "height"].map((side) => Math.round(one.getBoundingClientRect()[side]))])
  .filter(([, width, height]) => width < ${FINGER} || height < ${FINGER})`

async function fingers(room) {
  const pages = [await room.open(), await openPhone(room)]
  const [first, page] = pages
  await draw(first, "rect", [100, 100], [420, 400])
  await page.waitUntil("the rectangle", `${COUNT} === 1`)
  await waitForNews()
  const other = await room.open()
  await allDrag([first, other], ".version", [[200, 0], [0, 200]])
  await page.waitUntil("both versions", `${COUNT} === 2`)
  expectEqual("what is too small for the name", await page.look(SMALL), [])
  await tapOn(page, "#own-name button")
  await tapOn(page, '.tag[data-letter="B"] .reach')
  await tapOn(page, "#details")
  await page.picture(join(PICTURES, "phone-versions.png"))
  expectEqual("what is too small", await page.look(SMALL), [])
  await tapOn(page, "#details")
  const { x, y, width, height } = await boxOf(page, ".handle.reach")
  const before = await page.look(BODIES)
  await drag(page, [x + width - 4, y + height - 4], [x + width + 16, y + height + 16])
  const key = Object.keys(before).find((one) => one.endsWith("B"))
  await page.waitUntil("it is larger", `${BODIES}["${key}"][3] > ${before[key][3]}`)
}

async function otherScreens(room) {
  for (const [width, height, share] of [[320, 568, 0.66], [844, 390, 0.6], [760, 500, 0.66]]) {
    const page = width === 760 ? await room.open(width, height) : await openPhone(room, width, height)
    expect(`nothing is outside ${width} × ${height}`, await isWithin(page, width, height))
    const paper = await boxOf(page, "#window")
    expect(`the paper at ${width} × ${height}: ${paper.height}`, paper.height >= share * height)
    await page.picture(join(PICTURES, `screen-${width}.png`))
  }
}

async function fields(room) {
  const page = await openPhone(room)
  const sizes = `[...document.querySelectorAll("input[type=text], textarea")]
    .map((one) => parseFloat(getComputedStyle(one).fontSize)).filter((size) => size < 16)`
  await tapOn(page, `[data-tool="text"]`)
  await tap(page, [100, 300])
  expectEqual("the field on the paper", await page.look(`document.activeElement.tagName`), "TEXTAREA")
  expectEqual("small letters", await page.look(sizes), [])
  await page.write("Quay")
  await tap(page, [200, 600])
  await page.waitUntil("the text", `${COUNT} === 1`)
  await tapOn(page, "#details")
  expectEqual("small letters in the panel", await page.look(sizes), [])
}

/** The contrast of two colours, as WCAG 2 has it, of 4.5 or more for text. */
const CONTRAST = `(() => {
  const light = (colour) => {
    const [r, g, b] = colour.match(/[\\d.]+/g).map(Number)
      .map((one) => one / 255).map((one) => (one <= 0.04045 ? one / 12.92 : ((one + 0.055) / 1.055) ** 2.4))
    return 0.2126 * r + 0.7152 * g + 0.0722 * b
  }
  const groundOf = (one) => {
    const { backgroundColor } = getComputedStyle(one)
    return /, 0\\)|^transparent/.test(backgroundColor) ? groundOf(one.parentElement ?? document.documentElement)
      : backgroundColor
  }
  const words = "h1, h2, p, button:not(:disabled), :not(:disabled) > span, label, summary, textarea, dt, mark"
  const texts = [...document.querySelectorAll(words)].filter((one) =>
    one.checkVisibility() && one.textContent.trim() !== "" && one.closest("svg, .unseen") === null)
  return texts.map((one) => {
    const [ink, ground] = [getComputedStyle(one).color, groundOf(one)].map(light)
    return [one.textContent.trim().slice(0, 30), (Math.max(ink, ground) + 0.05) / (Math.min(ink, ground) + 0.05)]
  }).filter(([, contrast]) => contrast < 4.5)
})()`

const useDark = (page, value) =>
  page.ask("Emulation.setEmulatedMedia", { features: [{ name: "prefers-color-scheme", value }] })

/** All words can be read, and the paper stays light: people choose dark colours for it. */
async function dark(room) {
  const page = await room.open()
  const other = await room.open()
  await draw(page, "rect", [100, 100], [420, 400])
  await other.waitUntil("the rectangle", `${COUNT} === 1`)
  await waitForNews()
  await allDrag([page, other], ".version", [[200, 0], [0, 200]])
  const ground = (selector) => page.look(`getComputedStyle(document.querySelector("${selector}")).backgroundColor`)
  const light = await ground("body > aside")
  for (const scheme of ["light", "dark"]) {
    await useDark(page, scheme)
    await page.frame()
    expectEqual(`words that are hard to read, ${scheme}`, await page.look(CONTRAST), [])
    expectEqual(`the paper, ${scheme}`, await ground("#window"), "rgb(255, 255, 255)")
    await page.picture(join(PICTURES, `${scheme}.png`))
  }
  expect("the panel is another", light !== await ground("body > aside"))
}

/** A drag of somebody else has no motion between its places. */
async function still(room) {
  const first = await room.open()
  const second = await room.open()
  const features = [{ name: "prefers-reduced-motion", value: "reduce" }]
  await second.ask("Emulation.setEmulatedMedia", { features })
  await draw(first, "rect", [100, 100], [220, 180])
  await second.waitUntil("the rectangle", `${COUNT} === 1`)
  await second.look(`void (function next() {
    window.places ??= new Set()
    const ghost = document.querySelector(".ghost .body")
    if (ghost !== null) places.add(Math.round(ghost.getBBox().x))
    requestAnimationFrame(next)
  })()`)
  await first.press(await onScreen(first, [160, 140]))
  for (const x of [560, 960]) {
    await first.mouse("mouseMoved", await onScreen(first, [x, 140]))
    await second.waitUntil("the drag", `document.querySelector(".ghost .body")?.getBBox().x === ${x - 60}`)
  }
  await first.release(await onScreen(first, [960, 140]))
  expectEqual("where it was seen", (await second.look("[...places]")).filter((x) => x !== 500 && x !== 900), [])
}
