/** Further tools: the pen, texts, copies, custom colours, and the order from back to front. */

import { join } from "node:path"
import { Refused } from "../../../clients/js/grace.js"
import { expect, expectEqual, waitUntil } from "../../../clients/js/tests/checks.js"
import { Handwriting } from "../handwriting.js"
import { CONTROL, SHIFT } from "./chromium.mjs"
import {
  COUNT, PICTURES, VERSIONS, added, draw, onScreen, readyStroke, signalRoom, step, stroke, twoPeople,
} from "./people.mjs"

// Longer than the time in which a stroke goes into the object of the one before.
const LATER_MILLISECONDS = 2300

export const sketching = (browser) => twoPeople(browser, async ({ first, second, room, server }) => {
  await step("strokes of the pen", () => strokes(first, second, room))
  await step("a stroke that takes several objects", () => longStroke(first, second, room))
  await step("strokes that go into one object", () => handwriting(first, second, room))
  await step("a long text by hand", () => longText(first, second, room))
  await step("strokes that begin another object", () => otherObjects(first, room))
  await step("two people write at once", () => bothWrite(first, second, room))
  await step("a stroke after another has moved the object", () => strokeAfterMove(first, second, room))
  await step("a stroke while another drags", () => strokeWhileDragged(first, second, room, server))
  await step("a stroke that the room refuses in an object", () => refusedStroke())
  await step("text on a shape", () => textOnShape(first, second, room))
  await step("to the front and to the back", () => frontAndBack(first, second, room))
  await step("copies", () => copies(first, second, room))
  await step("a colour of one's own", () => ownColour(first, room))
  await first.picture(join(PICTURES, "sketched.png"))
})

/** A stroke has the points at which it turns, relative to its corner. Points between them are left out. */
async function strokes(first, second, room) {
  const wanted = ["new", [["x", 100], ["y", 500], ["width", 200], ["height", 100], ["fill", "#3a86c8"],
    ["points-0", "0,0 200,0 200,100"]]]
  const places = [[100, 500], [200, 500], [300, 500], [300, 550], [300, 600]]
  expectEqual("a stroke", await added(room, 1, () => stroke(first, places)), [wanted])
  const path = `document.querySelector(".version path.body").getAttribute("d")`
  await second.waitUntil("the stroke", `${COUNT} === 1`)
  expectEqual("what the other shows", await second.look(path), "M 100 500 L 300 500 L 300 600")
  expectEqual("a dot", (await added(room, 1, () => stroke(first, [[50, 700]])))[0][1].at(-1), ["points-0", "0,0"])
  await first.key("Escape")
  const middle = await onScreen(first, [300, 550])
  const to = await onScreen(first, [320, 560])
  expectEqual("a move", await added(room, 1, () => first.drag(middle, to)), [["put", [["x", 120], ["y", 510]]]])
  const [x, y] = await onScreen(first, [320, 610])
  const corner = await onScreen(first, [420, 660])
  const larger = [["put", [["width", 300], ["height", 150]]]]
  expectEqual("another size", await added(room, 1, () => first.drag([x, y], corner)), larger)
  expectEqual("what is drawn then", await first.look(path), "M 120 510 L 420 510 L 420 660")
}

/** A long stroke is complete: each object begins where the one before ends, and each text fits a value. */
async function longStroke(first, second, room) {
  const places = Array.from({ length: 400 }, (_, place) => [400 + place, place % 2 === 0 ? 500 : 560])
  const before = await second.look(COUNT)
  const start = room.record.length
  await stroke(first, places)
  await second.waitUntil("all of it", `${COUNT} > ${before}`)
  await new Promise((resolve) => setTimeout(resolve, 500))
  const parts = room.record.slice(start).map((entry) => new Map(entry.at(-1)))
  const texts = parts.map((part) => [...part].filter(([key]) => key.startsWith("points-")).map(([, text]) => text))
  expect("each text fits", texts.flat().every((text) => text.length <= 256))
  expect("each object fits", parts.every((part) => part.size <= 16))
  const pointsOf = (part, place) => texts[place].join(" ").split(" ").map((word) => {
    const [x, y] = word.split(",").map(Number)
    return [part.get("x") + x, part.get("y") + y]
  })
  const points = parts.map(pointsOf)
  // A point takes 8 bytes with its space: an object takes some 270, so 400 take two.
  expectEqual("the objects", parts.length, 2)
  expectEqual("where the second begins", points[1][0], points[0].at(-1))
  expectEqual("all points", [...points[0], ...points[1].slice(1)], places)
  expectEqual("one step back", await added(room, 2, () => first.key("z", CONTROL)), [["drop"], ["drop"]])
  await first.key("Escape")
}

const later = () => new Promise((resolve) => setTimeout(resolve, LATER_MILLISECONDS))

/** Draws several strokes without a pause. */
async function strokesOf(page, several) {
  const ready = []
  for (const places of several) ready.push(await readyStroke(page, places))
  for (const drawNext of ready) await drawNext()
}

/** A new object of one stroke, as it is in the record. */
const inked = ([x, y, width, height], text) =>
  ["new", [["x", x], ["y", y], ["width", width], ["height", height], ["fill", "#3a86c8"], ["points-0", text]]]

const LETTER = [[[800, 60], [810, 100]], [[820, 60], [830, 100]], [[790, 50], [790, 110]]]
const LETTER_PATH = "M 800 60 L 810 100 M 820 60 L 830 100 M 790 50 L 790 110"
const STROKES = `document.querySelector('[aria-label="Strokes"] .body')?.getAttribute("d") ?? null`

/** Quick strokes near each other are one object. Undo takes back the last one alone, and the others see the same. */
async function handwriting(first, second, room) {
  await later()
  const two = ["points-0", "0,0 10,40 / 20,0 30,40"]
  const third = ["put", [["x", 790], ["y", 50], ["width", 40], ["height", 60],
    ["points-0", "10,10 20,50 / 30,10 40,50 / 0,0 0,60"]]]
  expectEqual("three strokes", await added(room, 3, () => strokesOf(first, LETTER)),
    [inked([800, 60, 10, 40], "0,0 10,40"), ["put", [["width", 30], ["height", 40], two]], third])
  await second.waitUntil("the strokes", `${STROKES} === "${LETTER_PATH}"`)
  const back = ["put", [["x", 800], ["y", 60], ["width", 30], ["height", 40], two]]
  expectEqual("one step back", await added(room, 1, () => first.key("z", CONTROL)), [back])
  await second.waitUntil("what is left", `${STROKES} === "${LETTER_PATH.split(" M 790")[0]}"`)
  const again = await added(room, 1, () => first.key("Z", CONTROL | SHIFT))
  expectEqual("the stroke again", again, [third])
  await first.key("Escape")
  const middle = await onScreen(second, [790, 80])
  const to = await onScreen(second, [810, 90])
  const moved = await added(room, 1, () => second.drag(middle, to))
  expectEqual("a move by the other", moved, [["put", [["x", 810], ["y", 60]]]])
  await first.waitUntil("all strokes there", `${STROKES}.startsWith("M 820 70 ")`)
  await second.key("Escape")
}

const LINES = 4
const LETTERS = 12
// The points of a letter. An object takes some 20 such letters.
const POINTS = 14
const ALL_STROKES = `[...document.querySelectorAll("path.body")].flatMap((one) =>
  one.getAttribute("d").split(/ (?=M)/))`

/** A person who writes on fills one object after another, and no stroke is lost. */
async function longText(first, second, room) {
  await later()
  const letter = (_, place) => Array.from({ length: POINTS }, (_, point) =>
    [700 + 30 * (place % LETTERS) + point, 640 + 30 * Math.floor(place / LETTERS) + 20 * (point % 2)])
  const letters = Array.from({ length: LINES * LETTERS }, letter)
  const before = await second.look(ALL_STROKES)
  const start = room.record.length
  await strokesOf(first, letters)
  const all = [...before, ...letters.map((points) => `M ${points.map((point) => point.join(" ")).join(" L ")}`)]
  for (const page of [first, second]) {
    await page.waitUntil("all strokes", `(${ALL_STROKES}).length === ${all.length}`)
    expectEqual("the strokes", await page.look(ALL_STROKES), all)
  }
  await waitUntil("an entry of each", () => room.record.length === start + letters.length)
  const objects = room.record.slice(start).filter(([word]) => word === "new").length
  expect(`the objects: ${objects}`, objects > 1 && objects < letters.length / 2)
  await first.picture(join(PICTURES, "long-text.png"))
  for (let back = 0; back < letters.length; back++) await first.key("z", CONTROL)
  await second.waitUntil("all is taken back", `(${ALL_STROKES}).length === ${before.length}`)
  await first.key("Escape")
}

/** A stroke in another colour, far away, later, or after the object has changed begins another object. */
async function otherObjects(first, room) {
  await later()
  const one = () => stroke(first, [[930, 60], [940, 100]])
  const beside = () => stroke(first, [[950, 60], [960, 100]])
  const next = inked([950, 60, 10, 40], "0,0 10,40")
  expectEqual("the first", await added(room, 1, one), [inked([930, 60, 10, 40], "0,0 10,40")])
  expectEqual("far away", await added(room, 1, () => stroke(first, [[1100, 300], [1110, 340]])),
    [inked([1100, 300, 10, 40], "0,0 10,40")])
  expectEqual("near the one before the last", await added(room, 1, beside), [next])
  await later()
  expectEqual("later", await added(room, 1, () => stroke(first, [[970, 60], [980, 100]])),
    [inked([970, 60, 10, 40], "0,0 10,40")])
  expectEqual("undone", await added(room, 1, () => first.key("z", CONTROL)), [["drop"]])
  expectEqual("after the object was deleted", await added(room, 1, beside), [next])
  await first.click('[data-colour="#e4572e"]')
  const [[word, pairs]] = await added(room, 1, () => stroke(first, [[970, 60], [980, 100]]))
  expectEqual("in another colour", [word, pairs[4]], ["new", ["fill", "#e4572e"]])
  await first.click('[data-colour="#3a86c8"]')
  await first.key("Escape")
}

/** The strokes of two people who write at one place are in objects of their own. */
async function bothWrite(first, second, room) {
  await later()
  const start = room.record.length
  const ready = []
  for (const x of [900, 910, 920]) {
    ready.push(await readyStroke(first, [[x, 400], [x, 430]]))
    ready.push(await readyStroke(second, [[x + 5, 400], [x + 5, 430]]))
  }
  await added(room, 6, async () => {
    for (const drawNext of ready) await drawNext()
  })
  // The author of each operation, and the author of the object that it changes.
  const operations = room.record.slice(start).map(([word, [site], , object]) =>
    [site, word === "put" ? object[0] : word])
  const [one, other] = [operations.find(([, word]) => word === "new")[0], operations.at(-1)[0]]
  for (const site of [one, other]) {
    const own = operations.filter(([author]) => author === site).map(([, of]) => of)
    expectEqual(`the changes of site ${site}`, own, ["new", site, site])
  }
  for (const page of [first, second]) await page.key("Escape")
}

/** A stroke after another has moved the object begins an object, and the move stays. */
async function strokeAfterMove(first, second, room) {
  await later()
  const before = await second.look(COUNT)
  const drawFirst = await readyStroke(first, [[600, 600], [640, 640]])
  const drawMore = await readyStroke(first, [[650, 600], [650, 640]])
  const [from, to] = [await onScreen(second, [620, 620]), await onScreen(second, [630, 620])]
  const changes = await added(room, 3, async () => {
    await drawFirst()
    await second.waitUntil("the stroke", `${COUNT} === ${before + 1}`)
    await second.drag(from, to)
    await first.waitUntil("the move", `[...document.querySelectorAll("path.body")].some((one) =>
      one.getAttribute("d").startsWith("M 610 600 "))`)
    await drawMore()
  })
  const next = inked([650, 600, 0, 40], "0,0 0,40")
  expectEqual("the changes", changes, [inked([600, 600, 40, 40], "0,0 40,40"), ["put", [["x", 610], ["y", 600]]], next])
  for (const page of [first, second]) await page.key("Escape")
}

/** A stroke that one person adds while another drags the object makes a version. The next stroke begins an object. */
async function strokeWhileDragged(first, second, room, server) {
  await later()
  const before = await second.look(COUNT)
  const drawFirst = await readyStroke(first, [[1000, 500], [1040, 540]])
  const drawMore = await readyStroke(first, [[990, 500], [990, 540]])
  await drawFirst()
  await second.waitUntil("the stroke", `${COUNT} === ${before + 1}`)
  await signalRoom(server, "SIGSTOP")
  await drawMore()
  await second.drag(await onScreen(second, [1020, 520]), await onScreen(second, [1060, 560]))
  const changes = await added(room, 2, () => signalRoom(server, "SIGCONT"))
  const [stroked, dragged] = changes.sort(([, one], [, other]) => other.length - one.length)
  expectEqual("the stroke", stroked,
    ["put", [["x", 990], ["y", 500], ["width", 50], ["height", 40], ["points-0", "10,0 50,40 / 0,0 0,40"]]])
  expectEqual("the move", dragged, ["put", [["x", 1040], ["y", 540]]])
  for (const page of [first, second]) await page.waitUntil("both versions", `${COUNT} === ${before + 2}`)
  expectEqual("the next stroke", (await added(room, 1, () => stroke(first, [[1010, 500], [1010, 540]])))[0][0], "new")
  for (const page of [first, second]) await page.key("Escape")
}

/** A stroke that the room refuses as a part of an object becomes an object of its own, in the colour of the stroke. */
async function refusedStroke() {
  const made = []
  const changeOf = (done, attributes = {}) =>
    ({ object: [1, 1], version: { attributes: new Map(Object.entries(attributes)) }, done })
  const changes = {
    step: (call) => call(),
    create: (kind, attributes) => (made.push(attributes), changes.last = changeOf(Promise.resolve(), attributes)),
    put: () => changeOf(Promise.reject(new Refused("too-many-versions"))),
  }
  const room = { has: () => true, versions: () => [changes.last.version] }
  const tools = { colour: "#3a86c8" }
  const style = { shapeOf: () => ({ fill: tools.colour, thickness: "medium" }) }
  const handwriting = new Handwriting({ changes, room, camera: { scale: 1 }, style })
  for (const x of [100, 110]) handwriting.draw([[x, 100], [x, 140]], performance.now())
  tools.colour = "#e4572e"
  await new Promise((resolve) => setTimeout(resolve))
  expectEqual("the objects", made.map(({ x, fill, "points-0": text }) => [x, fill, text]),
    [[100, "#3a86c8", "0,0 0,40"], [110, "#3a86c8", "0,0 0,40"]])
}

async function textOnShape(first, second, room) {
  await draw(first, "rect", [500, 80], [760, 240])
  await second.waitUntil("the rectangle", `document.querySelector('[aria-label="Rectangle"]') !== null`)
  const write = (words) => async () => {
    await first.write(words)
    await first.key("Enter", CONTROL)
  }
  await first.doubleClick(await onScreen(first, [600, 150]))
  expectEqual("a text", await added(room, 1, write("Harbour master")), [["put", [["name", "Harbour master"]]]])
  const shown = `[...document.querySelectorAll('.version[aria-label*="Harbour"] tspan')].map((one) => one.textContent)`
  await second.waitUntil("the text", `${shown}.length > 0`)
  expectEqual("what the other shows", await second.look(shown), ["Harbour master"])
  await first.key("F2")
  const end = () => first.key("Escape")
  expectEqual("nothing written, and ended by Escape", await added(room, 0, end), [])
  await first.key("F2")
  await first.write("Pier")
  expectEqual("a text that Escape ends", await added(room, 1, end), [["put", [["name", "Pier"]]]])
  await added(room, 1, () => first.key("z", CONTROL))
  await first.key("F2")
  const long = "Ä".repeat(300)
  // A value has 256 bytes, and this letter takes two.
  expectEqual("a long text", await added(room, 1, write(long)),
    [["put", [["name", "Ä".repeat(128)], ["name-2", "Ä".repeat(128)], ["name-3", "Ä".repeat(44)]]]])
  await first.key("F2")
  const words = "The harbour master's house, where the boats of the whole bay are counted each evening"
  expectEqual("a shorter one", await added(room, 1, write(words)),
    [["put", [["name", words], ["name-2", ""], ["name-3", ""]]]])
  expectEqual("what is shown in lines", (await first.look(shown.replace("Harbour", "harbour"))).join(" "), words)
  const fits = `(() => {
    const shape = document.querySelector('.version[aria-label*="harbour"]')
    const [text, body] = ["text", ".body"].map((one) => shape.querySelector(one).getBBox())
    return text.x >= body.x && text.x + text.width <= body.x + body.width && text.height <= body.height
  })()`
  expect("the lines are within the shape", await first.look(fits))
}

/** A press selects the object in front. */
async function frontAndBack(first, second, room) {
  await draw(first, "ellipse", [720, 180], [840, 300])
  await second.waitUntil("the ellipse", `document.querySelector('[aria-label="Ellipse"]') !== null`)
  const [x, y] = await onScreen(first, [740, 225])
  const on = `document.elementFromPoint(${x}, ${y}).closest(".version").getAttribute("aria-label").split(" ")[0]`
  expectEqual("what was drawn later is in front", await first.look(on), "Ellipse")
  await first.click('.version[aria-label^="Rectangle"] .body')
  expectEqual("to front", await added(room, 1, () => first.click('[data-focus="front"]')), [["put", [["z", 1]]]])
  expectEqual("what is in front", await first.look(on), "Rectangle")
  await second.waitUntil("the same for the other", `${on} === "Rectangle"`)
  expectEqual("to back", await added(room, 1, () => first.click('[data-focus="back"]')), [["put", [["z", -1]]]])
  expectEqual("what is in front then", await first.look(on), "Ellipse")
  expectEqual("undone", await added(room, 1, () => first.key("z", CONTROL)), [["put", [["z", 1]]]])
}

/** A copy is a new object beside the first. Another window can paste it too. */
async function copies(first, second, room) {
  await first.click('.version[aria-label="Ellipse"] .body')
  await first.key("c", CONTROL)
  const rest = [["fill", "#3a86c8"], ["height", 120], ["name", ""], ["width", 120]]
  const copy = (x, y) => [["new", [...rest, ["x", x], ["y", y]]]]
  expectEqual("a copy", await added(room, 1, () => first.key("v", CONTROL)), copy(740, 200))
  expectEqual("another", await added(room, 1, () => first.key("v", CONTROL)), copy(760, 220))
  expectEqual("by the button of another window", await added(room, 1, () => second.click("#paste")), copy(740, 200))
  const words = (await second.look(VERSIONS)).map(([, , , one]) => one).filter((one) => one === "Ellipse")
  expectEqual("the ellipses", words.length, 4)
  expectEqual("what is selected", await first.look(`document.querySelector("#panel h2").textContent`), "Ellipse")
  expectEqual("undone", await added(room, 1, () => first.key("z", CONTROL)), [["drop"]])
}

/** The browser's colour dialogue is not part of the page, so the test sets the field's value. */
async function ownColour(first, room) {
  await first.click('.version[aria-label="Ellipse"] .body')
  const choose = () => first.look(`(() => {
    const field = document.getElementById("own-colour")
    field.value = "#ff00aa"
    field.dispatchEvent(new Event("change", { bubbles: true }))
  })()`)
  expectEqual("a colour", await added(room, 1, choose), [["put", [["fill", "#ff00aa"]]]])
  expectEqual("what is drawn next", (await added(room, 1, () => draw(first, "line", [60, 60], [160, 60])))[0][1].at(-2),
    ["fill", "#ff00aa"])
}
