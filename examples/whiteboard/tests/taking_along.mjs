/** Taking a drawing along: pictures, a file that opens again, paper; and what is pasted or dropped from elsewhere. */

import { existsSync } from "node:fs"
import { mkdtemp, readFile, rm, writeFile } from "node:fs/promises"
import { tmpdir } from "node:os"
import { join } from "node:path"
import { expect, expectEqual, waitUntil } from "../../../clients/js/tests/checks.js"
import { CONTROL, SHIFT } from "./chromium.mjs"
import {
  BODIES, COUNT, HEADING, MESSAGES, PICTURES, VERSIONS, added, allDrag, draw, isOpen, onScreen, step, stroke,
  waitForNews, withRecord,
} from "./people.mjs"
import { recordOf } from "./full.mjs"
import { inOwnRooms } from "./rooms.mjs"

export async function takingAlong(browser) {
  const folder = await mkdtemp(join(tmpdir(), "whiteboard-files-"))
  const download = { behavior: "allow", downloadPath: folder }
  await browser.ask("Browser.setDownloadBehavior", download)
  try {
    await inOwnRooms(browser, {
      "a file that opens again": (room) => fileOpens(room, folder),
      "versions in a file": (room) => versionsInFile(room, folder),
      "files that are no drawings": (room) => badFiles(room, folder),
      "a picture as SVG and as PNG": (room) => pictures(room, folder),
      "an empty drawing": (room) => nothingToSave(room, folder),
      "on paper": onPaper,
      "a text is pasted": pastedText,
      "a picture is pasted or dropped": (room) => noPictures(room, folder),
      "copies reach another address": otherAddress,
    })
    await step("a file in a room that is nearly full", () => nearlyFull(browser, folder))
  } finally {
    await rm(folder, { recursive: true })
  }
}

/** Chooses an entry of the menu. */
async function choose(page, id) {
  await page.click("#take-along")
  await page.click(`#${id}`)
}

/** Saves by an entry of the menu. Returns the path of the file. */
async function save(page, id, path) {
  await rm(path, { force: true })
  await choose(page, id)
  await waitUntil(`the file ${path}`, () => existsSync(path))
  return path
}

/** Opens a file by the menu. */
async function open(page, path) {
  await page.ask("DOM.enable")
  await page.ask("Page.setInterceptFileChooserDialog", { enabled: true })
  const chooser = page.next("Page.fileChooserOpened")
  await choose(page, "open-file")
  const { backendNodeId } = await chooser
  await page.ask("DOM.setFileInputFiles", { files: [path], backendNodeId })
}

const says = (page, words) => page.waitUntil(words, `${MESSAGES}.includes(${JSON.stringify(words)})`)

/** What is drawn, whatever its objects are called. */
const BODIES_ALONE = `Object.values(${BODIES})`
const LINE = `document.querySelector("line.body, path.body.stroke")`

/** Two shapes, an arrow that sticks to both, a text, a stroke, and an integer that a double cannot hold. */
async function fileOpens(room, folder) {
  const page = await room.open()
  const client = await room.watch()
  client.create("rect", { x: 700, y: 100, width: 100, height: 80, weight: 2n ** 62n + 1n })
  await page.waitUntil("the rectangle of another client", `${COUNT} === 1`)
  await draw(page, "rect", [100, 100], [220, 180])
  await page.key("F2")
  await page.write("Harbour")
  await page.key("Enter", CONTROL)
  await draw(page, "ellipse", [400, 300], [520, 380])
  await draw(page, "arrow", [160, 140], [460, 340])
  await stroke(page, [[100, 500], [200, 500], [200, 600]])
  await page.key("Escape")
  const path = await save(page, "save-file", join(folder, `${room.name}.json`))
  const text = await readFile(path, "utf8")
  expect("the integer", text.includes(`["weight",4611686018427387905]`))
  const [, , objects] = JSON.parse(text)
  expectEqual("the kinds", objects.map(([kind]) => kind), ["rect", "rect", "ellipse", "line", "pen"])
  expectEqual("the stroke", Object.fromEntries(objects[4][1][0]),
    { x: 100, y: 500, width: 100, height: 100, fill: "#3a86c8", "points-0": "0,0 100,0 100,100" })
  const other = await room.open(1240, 720, false, room.otherLink)
  await open(other, path)
  await other.waitUntil("the objects", `${COUNT} === 5`)
  expectEqual("what is drawn", await other.look(BODIES_ALONE), await page.look(BODIES_ALONE))
  expectEqual("the heading", await other.look(HEADING), "5 objects")
  await other.picture(join(PICTURES, "file-opened.png"))
  await opensTwice(other, path)
}

/** A second copy is made of new objects: its arrow sticks to its own shapes. One undo takes it back. */
async function opensTwice(page, path) {
  await open(page, path)
  await page.waitUntil("the objects again", `${COUNT} === 10`)
  await page.key("Escape")
  const end = `document.querySelectorAll("path.body")[0].getAttribute("d")`
  const before = await page.look(end)
  // The ellipse of the second copy lies above that of the first.
  await page.drag(await onScreen(page, [430, 360]), await onScreen(page, [530, 460]))
  expectEqual("the arrow of the first copy", await page.look(end), before)
  await page.key("z", CONTROL)
  await page.key("z", CONTROL)
  await page.waitUntil("one copy", `${COUNT} === 5`)
  await page.key("z", CONTROL)
  await page.waitUntil("none", `${COUNT} === 0`)
  await page.key("Z", CONTROL | SHIFT)
  await page.waitUntil("all again", `${COUNT} === 5`)
}

async function versionsInFile(room, folder) {
  const pages = [await room.open(), await room.open()]
  await draw(pages[0], "rect", [100, 100], [220, 180])
  await pages[1].waitUntil("the rectangle", `${COUNT} === 1`)
  await waitForNews()
  await allDrag(pages, ".version", [[200, 0], [0, 200]])
  const path = await save(pages[0], "save-file", join(folder, `${room.name}.json`))
  const [, , objects] = JSON.parse(await readFile(path, "utf8"))
  expectEqual("the versions of one object", objects.map(([, versions]) => versions.length), [2])
  const other = await room.open(1240, 720, false, room.otherLink)
  await open(other, path)
  await says(other, "1 object had several versions. Each version is now an object.")
  await other.waitUntil("both", `${COUNT} === 2`)
  expectEqual("the objects", new Set((await other.look(VERSIONS)).map(([object]) => object)).size, 2)
}

const BAD = {
  "no.json": ["Hello", "It is no drawing of a whiteboard."],
  "other.json": [`["excalidraw",1,[]]`, "It is no drawing of a whiteboard."],
  "newer.json": [`["grace-whiteboard",2,[]]`, "A newer whiteboard has saved it."],
  "cut.json": [`["grace-whiteboard",1,[["rect",[[["x",1]]]],["rect"`, "It is no drawing of a whiteboard."],
  "key.json": [`["grace-whiteboard",1,[["rect",[[["x",1]]]],["rect",[[["X",1]]]]]]`, "It is damaged."],
  "twice.json": [`["grace-whiteboard",1,[["rect",[[["x",1],["x",2]]]]]]`, "It is damaged."],
  "none.json": [`["grace-whiteboard",1,[["rect",[]]]]`, "It is damaged."],
  "long.json": [`["grace-whiteboard",1,[["rect",[[["name","${"x".repeat(257)}"]]]]]]`, "It is damaged."],
}

async function badFiles(room, folder) {
  const page = await room.open()
  const client = await room.watch()
  const entries = await added(client, 0, async () => {
    for (const [name, [text, reason]] of Object.entries(BAD)) {
      await writeFile(join(folder, name), text)
      await open(page, join(folder, name))
      await says(page, `“${name}” was not opened. ${reason}`)
    }
  })
  expectEqual("what was made", entries, [])
}

/** The colours of a picture at these places, as its browser decodes it. */
const coloursAt = (page, type, base64, places) => page.look(`(async () => {
  const image = new Image()
  image.src = "data:${type};base64,${base64}"
  await image.decode()
  const canvas = Object.assign(document.createElement("canvas"), { width: image.width, height: image.height })
  const context = canvas.getContext("2d")
  context.drawImage(image, 0, 0)
  return [[image.width, image.height], ...${JSON.stringify(places)}.map(([x, y]) =>
    [...context.getImageData(x, y, 1, 1).data].join())]
})()`)

const [RED, BLUE, PAPER] = ["228,87,46,255", "58,134,200,255", "255,255,255,255"]

/** The margin is 16 units. A PNG has two pixels for a unit. */
async function pictures(room, folder) {
  const page = await room.open()
  await page.click('[data-colour="#e4572e"]')
  await draw(page, "rect", [100, 100], [300, 200])
  await page.key("F2")
  await page.write("Lake")
  await page.key("Enter", CONTROL)
  await page.key("Escape")
  await page.click('[data-colour="#3a86c8"]')
  await stroke(page, [[400, 100], [400, 200]])
  await page.key("Escape")
  const svg = await readFile(await save(page, "save-svg", join(folder, `${room.name}.svg`)))
  await writeFile(join(PICTURES, "saved.svg"), svg)
  // In the rectangle, on the line, and on the paper between them.
  const places = [[26, 26], [316, 60], [260, 60]]
  expectEqual("the SVG", await coloursAt(page, "image/svg+xml", svg.toString("base64"), places),
    [[332, 132], RED, BLUE, PAPER])
  expect("its text", /<tspan[^>]*>Lake<\/tspan>/.test(svg.toString()))
  const png = await readFile(await save(page, "save-png", join(folder, `${room.name}.png`)))
  await writeFile(join(PICTURES, "saved.png"), png)
  const inPng = places.map(([x, y]) => [2 * x, 2 * y])
  expectEqual("the PNG", await coloursAt(page, "image/png", png.toString("base64"), inPng),
    [[664, 264], RED, BLUE, PAPER])
}

async function nothingToSave(room, folder) {
  const page = await room.open()
  await choose(page, "save-svg")
  await says(page, "Nothing is drawn yet.")
  expect("no file", !existsSync(join(folder, `${room.name}.svg`)))
  await page.click("#take-along")
  await page.picture(join(PICTURES, "menu.png"))
  await page.key("Escape")
  expectEqual("the menu", await page.look(`document.querySelector(":popover-open") === null`), true)
}

/** One page has the whole drawing, also what is outside the window, and nothing else. */
async function onPaper(room) {
  const page = await room.open()
  await draw(page, "rect", [100, 100], [300, 200])
  await page.key("Escape")
  await page.wheel(await onScreen(page, [600, 500]), 0, -2200)
  await draw(page, "ellipse", [600, -3000], [800, -2900])
  await page.look(`void new MutationObserver(([{ addedNodes: [picture] }]) => {
    window.printed ??= picture.getAttribute("viewBox")
  }).observe(document.getElementById("paper"), { childList: true })`)
  const { data } = await page.ask("Page.printToPDF", { printBackground: true, preferCSSPageSize: true })
  await writeFile(join(PICTURES, "printed.pdf"), Buffer.from(data, "base64"))
  const pages = Buffer.from(data, "base64").toString("latin1").match(/\/Type\s*\/Page\b/g)
  expectEqual("the pages of paper", pages.length, 1)
  // The margin is 16 units.
  expectEqual("what was on it", await page.look("printed"), "84 -3016 732 3232")
  expectEqual("what is left of it", await page.look(`document.getElementById("paper").childElementCount`), 0)
}

async function allowClipboard(room) {
  const permissions = ["clipboardReadWrite", "clipboardSanitizedWrite"]
  await room.browser.ask("Browser.grantPermissions", { origin: new URL(room.link).origin, permissions })
}

async function pastedText(room) {
  await allowClipboard(room)
  const page = await room.open()
  const client = await room.watch()
  const paste = async (text) => {
    await page.look(`navigator.clipboard.writeText(${JSON.stringify(text)})`)
    await page.key("v", CONTROL)
  }
  const [[word, pairs]] = await added(client, 1, () => paste("First line\r\nsecond"))
  expectEqual("a text", [word, new Map(pairs).get("name")], ["new", "First line\nsecond"])
  const box = `document.querySelector(".version .body").getBoundingClientRect()`
  const middle = `document.getElementById("board").getBoundingClientRect()`
  expect("where it is", await page.look(`(() => {
    const [one, all] = [${box}, ${middle}].map(({ x, y, width, height }) => [x + width / 2, y + height / 2])
    return Math.hypot(one[0] - all[0], one[1] - all[1]) < 2
  })()`))
  const cut = "The text is too long, and was cut after 4,000 bytes."
  // Each letter has three bytes.
  const long = await added(client, 1, () => paste("漢".repeat(5000)))
  await says(page, cut)
  expectEqual("a text that is too long", long.flatMap(([, pairs]) => pairs)
    .filter(([key]) => key.startsWith("name")).map(([, piece]) => piece).join(""), "漢".repeat(1333))
  expectEqual("one step back", (await added(client, 1, () => page.key("z", CONTROL))).map(([word]) => word), ["drop"])
  expectEqual("blanks", await added(client, 0, () => paste("  \n ")), [])
}

// One pixel.
const PNG = "iVBORw0KGgoAAAANSUhEUgAAAAEAAAABCAYAAAAfFcSJAAAADUlEQVR42mNkYPhfDwAChwGA60e6kgAAAABJRU5ErkJggg=="
const NO_PICTURES = "Pictures are not supported, so nothing was added."

async function noPictures(room, folder) {
  await allowClipboard(room)
  const page = await room.open()
  const client = await room.watch()
  const file = join(folder, "picture.png")
  await writeFile(file, Buffer.from(PNG, "base64"))
  const entries = await added(client, 0, async () => {
    await page.look(`fetch("data:image/png;base64,${PNG}").then((it) => it.blob()).then((blob) =>
      navigator.clipboard.write([new ClipboardItem({ "image/png": blob })]))`)
    await page.key("v", CONTROL)
    await says(page, NO_PICTURES)
    await page.waitUntil("the message has gone", `${MESSAGES}.length === 0`)
    await drop(page, [file], await onScreen(page, [300, 300]))
    await says(page, NO_PICTURES)
  })
  expectEqual("what was made", entries, [])
  const drawing = join(folder, "dropped.json")
  await writeFile(drawing, `["grace-whiteboard",1,[["rect",[[["x",5],["y",6]]]]]]`)
  expectEqual("a drawing that is dropped", await added(client, 1, async () =>
    drop(page, [drawing], await onScreen(page, [300, 300]))), [["new", [["x", 5], ["y", 6]]]])
  expect("the page is still there", await page.look(`document.getElementById("board") !== null`))
}

async function drop(page, files, [x, y]) {
  const data = { items: [], files, dragOperationsMask: 1 }
  for (const type of ["dragEnter", "dragOver", "drop"]) await page.ask("Input.dispatchDragEvent", { type, x, y, data })
}

/** Another host name is another origin, so it shares no storage of the browser. */
async function otherAddress(room) {
  const page = await room.open()
  await draw(page, "rect", [100, 100], [220, 180])
  await page.key("c", CONTROL)
  const link = new URL(room.otherLink)
  link.hostname = "localhost"
  const other = await room.open(1240, 720, false, link.href)
  expectEqual("its own copy", await other.look(`document.getElementById("paste").disabled`), true)
  await other.key("v", CONTROL)
  await other.waitUntil("the rectangle", `${COUNT} === 1`)
  expectEqual("its colour and size", (await other.look(BODIES_ALONE)).map(([fill, , , ...size]) => [fill, ...size]),
    [["#3a86c8", 120, 80]])
}

// A room takes 8,192 objects.
const NEARLY_ALL = 8190

/** Of a file with five objects the room takes two. */
async function nearlyFull(browser, folder) {
  const file = join(folder, "five.json")
  const five = Array.from({ length: 5 }, (_, place) => ["rect", [[["x", 100 * place]]]])
  await writeFile(file, JSON.stringify(["grace-whiteboard", 1, five]))
  await withRecord(recordOf(NEARLY_ALL, NEARLY_ALL + 1), async (address) => {
    const page = await browser.open(address, 1240, 720)
    await isOpen(page)
    await page.waitUntil("all objects", `${COUNT} === ${NEARLY_ALL}`)
    await open(page, file)
    await says(page, "Only 2 of 5 objects fit into this drawing.")
    await page.waitUntil("what fits", `${COUNT} === ${NEARLY_ALL + 2}`)
    expectEqual("faults in the page", page.faults, [])
    await page.close()
  })
}
