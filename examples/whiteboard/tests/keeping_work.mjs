/** What the room refuses, what others delete, and what is being written are not lost. */

import { join } from "node:path"
import { expect, expectEqual, waitUntil } from "../../../clients/js/tests/checks.js"
import { CUT_BEFORE, PASS, Proxy } from "../../../clients/js/tests/proxy.js"
import { CONTROL, SHIFT } from "./chromium.mjs"
import { TOO_MANY, recordOf } from "./full.mjs"
import {
  COUNT, MESSAGES, PICTURES, added, allDrag, draw, faults, isOpen, linesOf, onScreen, pageOf, step, twoPeople, watch,
  withRecord,
} from "./people.mjs"

const UNDO = ["z", CONTROL]
const REDO = ["Z", CONTROL | SHIFT]
const OBJECTS = 8192
const ENTRIES = 16384
const VERSIONS = 32
const FINAL = "Nothing new fits into this drawing, so this deletion can't be undone. Delete for good"
const CAN_UNDO = `!document.getElementById("undo").disabled`
const CAN_REDO = `!document.getElementById("redo").disabled`
const ACT = "#refusals button"

export async function keepingWork(browser) {
  await step("a deletion in a drawing without objects left", () => withoutObjects(browser))
  await step("an undo in a drawing without entries left", () => withoutEntries(browser))
  await step("an undo that the server refuses later", () => undoRefusedLater(browser))
  await step("changes that the limit of versions stops", () => tooManyVersions(browser))
  await step("an object that the limit of objects stops", () => tooManyObjects(browser))
  await step("changes that the limits of keys and changes stop", () => fullObject(browser))
  await step("a text on an object that the room refuses meanwhile", () => textOnRefused(browser))
  await twoPeople(browser, async ({ first, second, room }) => {
    await step("a version that somebody else deleted", () => versionDeleted(first, second, room))
    await step("what undo of 'Keep only this' does", () => keepOnlyUndone(first, second, room))
    await step("a deleted object that somebody else brought back", () => broughtBack(first, second, room))
  })
  await twoPeople(browser, async ({ first, second, room }) => {
    await step("others' changes are drawn while a text is written", () => drawnMeanwhile(first, second, room))
    await step("two texts at once, in the field on the shape", () => textsAtOnce(first, second, room))
    await step("a text on what others delete meanwhile", () => deletedMeanwhile(first, second, room))
    await step("a text in the panel", () => textInPanel(first, second, room))
  })
}

/** Runs an action with one page and a client beside it, in a room with this record. */
const withPage = (browser, record, act) => withRecord(record, async (address) => {
  const page = await browser.open(address, 1240, 720)
  await isOpen(page)
  const room = await watch(address)
  try {
    await act(page, room, address)
    faults(page)
  } finally {
    room.close()
    await page.close()
  }
})

/** The page asks before it deletes what could not be brought back, also by undo. */
const withoutObjects = (browser) => withPage(browser, recordOf(OBJECTS - 1, OBJECTS), async (page, room) => {
  await draw(page, "rect", [300, 300], [380, 360])
  await page.waitUntil("the new object", `${COUNT} === ${OBJECTS}`)
  for (const keys of [["Delete"], UNDO]) {
    expectEqual(`what ${keys[0]} does`, await added(room, 0, () => page.key(...keys)), [])
    expectEqual("the question", await page.look(MESSAGES), [FINAL])
  }
  expectEqual("what the button does", await added(room, 1, () => page.click(ACT)), [["drop"]])
  expectEqual("what redo does", await added(room, 0, () => page.key(...REDO)), [])
  expectEqual("why", await page.look(MESSAGES),
    ["This can't be redone: The room has reached its limit of objects. Skip this step"])
  expect("the step is there", await page.look(CAN_REDO))
})

/** A step that cannot be undone stays until the user skips it, and none before it is undone in its place. */
const withoutEntries = (browser) => withPage(browser, recordOf(TOO_MANY, ENTRIES - 4), async (page, room) => {
  const body = (object) => `.version[data-object="${object}"] .body`
  await page.click(body("1,20"))
  expectEqual("a colour", await added(room, 1, () => page.click('[data-colour="#e4572e"]')),
    [["put", [["fill", "#e4572e"]]]])
  await page.click(body("1,1"))
  expectEqual("what Delete does", await added(room, 0, () => page.key("Delete")), [])
  expectEqual("the question", await page.look(MESSAGES), [FINAL])
  expectEqual("what the button does", await added(room, 1, () => page.click(ACT)), [["drop"]])
  for (const times of ["once", "twice"]) {
    expectEqual(`undo ${times}`, await added(room, 0, () => page.key(...UNDO)), [])
    expectEqual("why", await page.look(MESSAGES),
      ["This can't be undone: The room's record is full, so nothing can be changed any more. Skip this step"])
    expect("the step is there", await page.look(CAN_UNDO))
  }
  await page.picture(join(PICTURES, "undo-refused.png"))
  await page.click(ACT)
  expect("the step before it is there", await page.look(CAN_UNDO))
  await page.key(...UNDO)
  await page.click(ACT)
  await page.frame()
  expect("none is left", !(await page.look(CAN_UNDO)))
})

/** The record of a rectangle with as many versions as one may have, each at another place. */
function manyVersions() {
  const joins = Array.from({ length: VERSIONS }, (_, place) => ["join", place + 1])
  const drawn = [["x", 0], ["y", 100], ["width", 60], ["height", 50], ["fill", "#3a86c8"], ["name", ""]]
  const put = (site) => ["put", [site, site === 1 ? 2 : 1], [[1, 1]], [1, 1], [], [["x", 30 * site]]]
  return linesOf([...joins, ["new", [1, 1], [], "rect", drawn], ...joins.map(([, site]) => put(site))])
}

/** Runs an action with a page behind a proxy, which can cut it off, in a room with this record and so many versions. */
const behindProxy = (browser, record, versions, act) => withRecord(record, async (address) => {
  const there = await pageOf(address)
  const proxy = await Proxy.start(new URL(there.searchParams.get("server")).port)
  there.searchParams.set("server", `ws://${proxy.address}/`)
  const page = await browser.open(there.href, 1240, 720)
  const room = await watch(address)
  try {
    await page.waitUntil("the versions", `${COUNT} === ${versions}`)
    await isOpen(page)
    await act({ page, room, proxy })
    faults(page)
  } finally {
    room.close()
    await page.close()
    proxy.end()
  }
})

/** The same in a room with a rectangle of many versions. */
const withManyVersions = (browser, act) => behindProxy(browser, manyVersions(), VERSIONS, act)

/** Runs an action of a person whom the server does not hear, and then one of somebody else. */
async function whileCutOff({ page, proxy }, act, change) {
  proxy.whatToDo = () => CUT_BEFORE
  proxy.cut()
  await page.waitUntil("it is cut off", `document.getElementById("state").dataset.state === "waiting"`)
  await act()
  await change().done
  proxy.whatToDo = () => PASS
  await isOpen(page)
}

/** Changes a version beside the page. */
function changeVersion(room, letter) {
  const version = room.versions([1, 1])[letter.charCodeAt(0) - "A".charCodeAt(0)]
  return room.put([1, 1], version, { x: 1000, fill: "#1d2733", name: "Somebody" })
}

const undoRefusedLater = (browser) => withManyVersions(browser, async (parts) => {
  const { page, room } = parts
  await page.click('.tag[data-object="1,1"][data-letter="B"]')
  const colour = () => page.click('[data-colour="#e4572e"]')
  expectEqual("a colour", await added(room, 1, colour), [["put", [["fill", "#e4572e"]]]])
  await waitUntil("it at the client beside", () => room.versions([1, 1]).some(({ attributes }) =>
    attributes.get("fill") === "#e4572e"))
  const letter = await page.look(`document.querySelector(".row.picked strong").textContent`)
  const undo = async () => {
    await page.key(...UNDO)
    expect("nothing is left to undo", !(await page.look(CAN_UNDO)))
  }
  await whileCutOff(parts, undo, () => changeVersion(room, letter))
  const words = "This can't be undone: This object has reached its limit of versions."
  await page.waitUntil("why", `${MESSAGES}.includes(${JSON.stringify(words)})`)
  // The buttons are drawn in the next frame.
  await page.waitUntil("the step is there again", CAN_UNDO)
  expect("nothing is to be redone", !(await page.look(CAN_REDO)))
})

// What the page keeps of refused changes: its words and its buttons.
const KEPT = `[...document.querySelectorAll("#kept .notice")].map((one) => one.querySelector("p").textContent)`
const BUTTONS = `[...document.querySelectorAll("#kept .notice button")].map((one) => one.textContent)`
const LIMIT_OF_VERSIONS = "This object has reached its limit of versions."
const PASTE = ["v", CONTROL]

/** The values of the last new object in a record: its text, its colour and its place. */
const lastNew = (entries) => {
  const values = new Map(entries.filter(([word]) => word === "new").at(-1)[1])
  return [values.get("name"), values.get("fill"), values.get("x")]
}

/** A text and a colour, made while cut off, are offered together. They become a new object, and a copy. */
const tooManyVersions = (browser) => withManyVersions(browser, async (parts) => {
  const { page, room } = parts
  await page.click('.tag[data-object="1,1"][data-letter="C"]')
  const write = async () => {
    await page.key("F2")
    await page.write("Harbour")
    await page.key("Enter", CONTROL)
    await page.click('[data-colour="#e4572e"]')
  }
  await whileCutOff(parts, write, () => changeVersion(room, "C"))
  await page.waitUntil("what is kept", `${KEPT}.length > 0`)
  expectEqual("its words", await page.look(KEPT),
    [`Your change of Rectangle “Harbour” could not be added. ${LIMIT_OF_VERSIONS}`])
  expectEqual("its buttons", await page.look(BUTTONS), ["Copy it", "Make it a new object", "Discard"])
  await page.picture(join(PICTURES, "kept-change.png"))
  await page.click('#kept [data-focus="copy-kept"]')
  expectEqual("the pasted copy", lastNew(await added(room, 1, () => page.key(...PASTE))), ["Harbour", "#e4572e", 110])
  const make = () => page.click('#kept [data-focus="make-kept"]')
  expectEqual("the new object", lastNew(await added(room, 1, make)), ["Harbour", "#e4572e", 90])
  expectEqual("what is kept then", await page.look(KEPT), [])
})

/** In a drawing without objects left a refused one can be copied, and pasted into another drawing. */
const tooManyObjects = (browser) => withPage(browser, recordOf(OBJECTS, OBJECTS + 1), async (page, room, address) => {
  await page.click('[data-colour="#e4572e"]')
  const drawn = () => draw(page, "ellipse", [300, 300], [380, 360])
  expectEqual("what is added", await added(room, 0, drawn), [])
  expectEqual("what is kept", await page.look(KEPT),
    ["Ellipse could not be added. The room has reached its limit of objects."])
  expectEqual("its buttons", await page.look(BUTTONS), ["Copy it", "Discard"])
  await page.click('#kept [data-focus="copy-kept"]')
  // The browser asks before it leaves a page that still keeps something.
  await page.click('#kept [data-focus="discard-kept"]')
  await page.follow("#new")
  await isOpen(page)
  await page.key(...PASTE)
  await page.waitUntil("the ellipse", `document.querySelector('.version[aria-label="Ellipse"]') !== null`)
})

/** An object is refused while its text is written. Both are kept. */
const textOnRefused = (browser) => behindProxy(browser, recordOf(OBJECTS - 1, OBJECTS), OBJECTS - 1, async (parts) => {
  const { page, room } = parts
  const write = async () => {
    await draw(page, "rect", [300, 300], [380, 360])
    await page.key("F2")
    await page.write("Pier")
  }
  await whileCutOff(parts, write, () => room.create("ellipse", { x: 500 }))
  const refused = "Rectangle could not be added. The room has reached its limit of objects."
  await page.waitUntil("the refusal", `${KEPT}.includes(${JSON.stringify(refused)})`)
  expectEqual("what is written", await page.look(`${FIELD}.value`), "Pier")
  await page.key("Enter", CONTROL)
  expectEqual("what is kept", await page.look(KEPT),
    [refused, "Your change of Rectangle “Pier” could not be added. This object does not exist."])
})

/** The record of a rectangle that takes no more keys, and of one that takes no more changes. */
function fullObjects() {
  const drawn = [["x", 100], ["y", 100], ["width", 60], ["height", 50], ["fill", "#3a86c8"]]
  const seen = (seq) => (seq > 1 ? [[1, seq - 1]] : [])
  const made = [1, 2].map((seq) => ["new", [1, seq], seen(seq), "rect", [["x", 100 * seq], ...drawn.slice(1)]])
  const keys = Array.from({ length: 64 }, (_, place) => [`key-${place}`, place])
  const puts = [0, 16, 32, 48].map((from) => [1, keys.slice(from, from + 16)])
  puts.push(...Array.from({ length: 1024 }, (_, place) => [2, [["y", 100 + place % 2]]]))
  const entry = ([object, pairs], place) => ["put", [1, place + 3], seen(place + 3), [1, object], [], pairs]
  return linesOf([["join", 1], ...made, ...puts.map(entry)])
}

const fullObject = (browser) => withPage(browser, fullObjects(), async (page, room) => {
  for (const [object, reason] of [["1,1", "attributes"], ["1,2", "changes"]]) {
    await page.click(`.version[data-object="${object}"] .body`)
    const colour = () => page.click('[data-colour="#e4572e"]')
    expectEqual("what is added", await added(room, 0, colour), [])
    const words = `Your change of Rectangle could not be added. This object has reached its limit of ${reason}.`
    expectEqual("what is kept", await page.look(KEPT), [words])
    const make = () => page.click('#kept [data-focus="make-kept"]')
    const [, fill] = lastNew(await added(room, 1, make))
    expectEqual("the colour of the new object", fill, "#e4572e")
    await page.key("Escape")
  }
})

const RECTANGLE = '.version[aria-label^="Rectangle"]'
const says = (words) => `${MESSAGES}.includes(${JSON.stringify(words)})`

/** The second person keeps their own version. The first, who worked on another one, is told, and takes it back. */
async function versionDeleted(first, second, room) {
  await draw(first, "rect", [100, 100], [200, 180])
  await second.waitUntil("the rectangle", `${COUNT} === 1`)
  const object = await allDrag([first, second], RECTANGLE, [[80, 40], [40, 120]])
  const keep = () => second.click('.card.picked .keep-only')
  const title = await second.look(`document.querySelector(".card.picked .keep-only").title`)
  expect(`what the button says before: ${title}`,
    /^Keep version [AB] and delete the other\. Undo brings it back as a new object\.$/.test(title))
  expectEqual("what the second does", await added(room, 1, keep), [["drop"]])
  const words = "Somebody deleted your version of Rectangle. Bring it back as a new objectClose"
  await first.waitUntil("the message", says(words))
  expectEqual("what the second is told", await second.look(MESSAGES), [])
  await first.picture(join(PICTURES, "version-deleted.png"))
  const [[word]] = await added(room, 1, () => first.click(ACT))
  expectEqual("what the first does", word, "new")
  const all = `document.querySelectorAll('.version[data-object="${object}"]').length`
  for (const page of [first, second]) {
    await page.waitUntil("both", `${COUNT} === 2`)
    expectEqual("the versions of the old one", await page.look(all), 1)
  }
}

/** Undo of 'Keep only this' makes new objects, and says so. */
async function keepOnlyUndone(first, second, room) {
  expectEqual("undo", await added(room, 1, () => second.key(...UNDO)), [["new", [["fill", "#3a86c8"],
    ["height", 80], ["name", ""], ["width", 100], ...await placeOfFirst(first)]]])
  const words = "1 version of Rectangle came back as a new object. Nothing can go on from a deleted version."
  await second.waitUntil("the message", says(words))
  expectEqual("redo", await added(room, 1, () => second.key(...REDO)), [["drop"]])
}

/** The place of the object that the first person brought back. */
const placeOfFirst = async (first) => first.look(`(() => {
  const { x, y } = document.querySelector(".version.picked .body").getBBox()
  return [["x", x], ["y", y]]
})()`)

/** A person deletes what another one is dragging. The page tells of the return, and deletes it too. */
async function broughtBack(first, second, room) {
  await draw(first, "ellipse", [500, 300], [600, 380])
  await second.waitUntil("the ellipse", `document.querySelector('[aria-label="Ellipse"]') !== null`)
  const from = await onScreen(second, [550, 340])
  await second.press(from)
  await second.moveTo([from[0] + 60, from[1] + 30])
  expectEqual("the deletion", await added(room, 1, () => first.key("Delete")), [["drop"]])
  await second.release([from[0] + 60, from[1] + 30])
  const words = "Ellipse, which you deleted, is back: somebody changed it meanwhile. Delete it too"
  await first.waitUntil("the message", says(words))
  await first.picture(join(PICTURES, "brought-back.png"))
  const buttons = `[...document.querySelectorAll("#refusals button")]`
  await first.look(`${buttons}.find((one) => one.textContent === "Delete it too").id = "too"`)
  expectEqual("the button", await added(room, 1, () => first.click("#too")), [["drop"]])
  for (const page of [first, second]) {
    await page.waitUntil("it is gone", `document.querySelector('[aria-label="Ellipse"]') === null`)
  }
}

const FIELD = `document.querySelector("#writing textarea")`
const named = (words) => `.version[aria-label="Rectangle “${words}”"]`
const isThere = (selector) => `document.querySelector('${selector}') !== null`

/** The first person writes while the second one draws an ellipse and moves the rectangle. The field goes with it. */
async function drawnMeanwhile(first, second, room) {
  await draw(first, "rect", [100, 100], [300, 220])
  await second.waitUntil("the rectangle", `${COUNT} === 1`)
  await first.key("F2")
  await first.write("Har")
  const top = await first.look(`${FIELD}.getBoundingClientRect().y`)
  await draw(second, "ellipse", [600, 400], [700, 480])
  await second.drag(await onScreen(second, [150, 130]), await onScreen(second, [150, 330]))
  await first.waitUntil("the ellipse", isThere('.version[aria-label="Ellipse"]'))
  await first.waitUntil("the move", `document.querySelector('${RECTANGLE} .body').getBBox().y === 300`)
  await first.frame()
  expect("the field went along", await first.look(`${FIELD}.getBoundingClientRect().y`) > top)
  await first.picture(join(PICTURES, "drawn-while-writing.png"))
  await first.write("bour")
  const enter = () => first.key("Enter", CONTROL)
  expectEqual("the text", await added(room, 1, enter), [["put", [["name", "Harbour"]]]])
  for (const page of [first, second]) {
    await page.waitUntil("the text", isThere(named("Harbour")))
    expectEqual("the versions", await page.look(COUNT), 2)
    expectEqual("its place", await page.look(`document.querySelector('${RECTANGLE} .body').getBBox().y`), 300)
  }
}

/** The second person's text is drawn while the first one writes. It is not overwritten. */
async function textsAtOnce(first, second, room) {
  for (const page of [first, second]) {
    await page.click(`${named("Harbour")} .body`)
    await page.key("F2")
  }
  await second.write("Pier")
  await second.key("Enter", CONTROL)
  await first.waitUntil("the other's text", isThere(named("Pier")))
  await first.write("Quay")
  expectEqual("the text", await added(room, 1, () => first.key("Enter", CONTROL)), [["put", [["name", "Quay"]]]])
  for (const page of [first, second]) {
    for (const [text, letter] of [["Quay", "A"], ["Pier", "B"]]) {
      await page.waitUntil("both texts", isThere(`.version[aria-label="Rectangle “${text}”, version ${letter} of 2"]`))
    }
  }
  expectEqual("what the first works on", await first.look(`document.querySelector(".card.picked strong").textContent`),
    "Version A")
  await added(room, 1, () => first.click('.card.picked .keep-only'))
}

/** The second person deletes the object on which the first one writes. It is back, with the text. */
async function deletedMeanwhile(first, second, room) {
  const quay = named("Quay")
  for (const page of [first, second]) await page.waitUntil("the rectangle", isThere(quay))
  await second.click(`${quay} .body`)
  await first.click(`${quay} .body`)
  await first.key("F2")
  await first.write("Mole")
  expectEqual("the deletion", await added(room, 1, () => second.key("Delete")), [["drop"]])
  await first.waitUntil("it is gone", `document.querySelector('${RECTANGLE}') === null`)
  expectEqual("what is written", await first.look(`${FIELD}.value`), "Mole")
  expectEqual("the text", await added(room, 1, () => first.key("Enter", CONTROL)), [["put", [["name", "Mole"]]]])
  for (const page of [first, second]) await page.waitUntil("it is back", isThere(named("Mole")))
  await second.waitUntil("the message",
    says("Rectangle “Mole”, which you deleted, is back: somebody changed it meanwhile. Delete it too"))
  await first.click('[data-focus="keep"]')
}

/** The panel's field holds nothing back either. */
async function textInPanel(first, second, room) {
  await first.click("#panel textarea")
  await first.write("s")
  await second.drag(await onScreen(second, [150, 330]), await onScreen(second, [150, 230]))
  await first.waitUntil("the move", `document.querySelector('${RECTANGLE} .body').getBBox().y === 200`)
  expectEqual("the text", await added(room, 1, () => first.key("Enter", CONTROL)), [["put", [["name", "Moles"]]]])
  for (const page of [first, second]) await page.waitUntil("the text", isThere(named("Moles")))
  expectEqual("the versions", await first.look(COUNT), 2)
}
