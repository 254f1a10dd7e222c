/** Several selected objects: boxes, Shift, groups, and what is done to all of them in one step. */

import { join } from "node:path"
import { expect, expectEqual } from "../../../clients/js/tests/checks.js"
import { CONTROL, SHIFT } from "./chromium.mjs"
import {
  BODIES, COUNT, HEADING, PICTURES, added, draw, objectsOf, onScreen, signalRoom, step, twoPeople, waitForNews,
} from "./people.mjs"

const RINGS = `document.querySelectorAll("#marks .ring.picked").length`
const PLACES = `[...document.querySelectorAll(".version .body")]
  .map((body) => body.getBBox()).map(({ x, y }) => [x, y])`

export const several = (browser) => twoPeople(browser, async ({ first, second, room, server }) => {
  await step("a box selects what it encloses", () => box(first, second))
  await step("Shift and a click", () => shiftClick(first))
  await step("several are moved in one step", () => moved(first, second, room))
  await step("several are moved by keys", () => movedByKeys(first, second, room))
  await step("several are coloured in one step", () => coloured(first, room))
  await step("copies of several", () => copied(first, second, room))
  await step("several are deleted, wherever the focus is", () => deleted(first, second, room))
  await step("all objects", () => all(first))
  await step("groups", () => groups(first, second, room))
  await step("a group and another change at once", () => atOnce(first, second, room, server))
  await step("letters in a text field", () => textField(first, room))
  await step("objects are aligned, and spaced evenly", () => aligned(first, second, room))
})

/** Drags a box over the paper, in units of the drawing. */
const dragBox = async (page, from, to) => page.drag(await onScreen(page, from), await onScreen(page, to))

async function clickAt(page, place) {
  const at = await onScreen(page, place)
  await page.press(at)
  await page.release(at)
}

async function box(first, second) {
  await draw(first, "rect", [100, 100], [200, 160])
  await draw(first, "ellipse", [300, 100], [400, 160])
  await draw(first, "line", [100, 300], [200, 360])
  await first.key("Escape")
  const from = await onScreen(first, [60, 60])
  const to = await onScreen(first, [450, 200])
  await first.press(from)
  await first.moveTo(to)
  await first.frame()
  expectEqual("the box", await first.look(`document.querySelectorAll(".selecting").length`), 1)
  await first.release(to)
  expectEqual("what is selected", [await first.look(HEADING), await first.look(RINGS)], ["2 objects", 2])
  await first.picture(join(PICTURES, "several.png"))
  await dragBox(first, [60, 60], [350, 200])
  expectEqual("what is not enclosed as a whole", await first.look(HEADING), "Rectangle")
  await clickAt(first, [600, 600])
  expectEqual("after a click on the paper", await first.look(RINGS), 0)
  await second.waitUntil("all objects", `${COUNT} === 3`)
}

async function shiftClick(first) {
  await clickAt(first, [150, 130])
  await first.withKeys(SHIFT, () => clickAt(first, [350, 130]))
  expectEqual("two", await first.look(HEADING), "2 objects")
  await first.withKeys(SHIFT, () => dragBox(first, [60, 270], [250, 400]))
  expectEqual("with a box", await first.look(HEADING), "3 objects")
  await first.withKeys(SHIFT, () => clickAt(first, [350, 130]))
  expectEqual("one is out", await first.look(HEADING), "2 objects")
  await first.key("Escape")
  expectEqual("none", await first.look(HEADING), "Objects (3)")
}

async function moved(first, second, room) {
  await dragBox(first, [60, 60], [450, 200])
  const drag = async () => first.drag(await onScreen(first, [150, 130]), await onScreen(first, [180, 180]))
  expectEqual("a drag", await added(room, 2, drag),
    [["put", [["x", 130], ["y", 150]]], ["put", [["x", 330], ["y", 150]]]])
  await second.waitUntil("the move", `JSON.stringify(${PLACES}) === "[[130,150],[330,150],[100,300]]"`)
  expectEqual("one step back", await added(room, 2, () => first.key("z", CONTROL)),
    [["put", [["x", 300], ["y", 100]]], ["put", [["x", 100], ["y", 100]]]])
  expectEqual("what is selected then", await first.look(HEADING), "2 objects")
  expectEqual("again", await added(room, 2, () => first.key("z", CONTROL | SHIFT)),
    [["put", [["x", 130], ["y", 150]]], ["put", [["x", 330], ["y", 150]]]])
  await clickAt(first, [180, 180])
  expectEqual("a click on one of them", await first.look(HEADING), "Rectangle")
  const other = async () => first.drag(await onScreen(first, [380, 180]), await onScreen(first, [380, 200]))
  expectEqual("a drag of another", await added(room, 1, other), [["put", [["x", 330], ["y", 170]]]])
}

async function movedByKeys(first, second, room) {
  await dragBox(first, [60, 60], [450, 260])
  // After a click on a button the focus is there.
  await first.click("#zoom-in")
  await first.click("#zoom-out")
  const keys = async () => {
    for (const key of ["ArrowRight", "ArrowRight", "ArrowDown"]) await first.key(key)
  }
  expectEqual("keys", await added(room, 2, keys),
    [["put", [["x", 150], ["y", 160]]], ["put", [["x", 350], ["y", 180]]]])
  expectEqual("one step back", (await added(room, 2, () => first.key("z", CONTROL))).length, 2)
  await second.waitUntil("as before", `JSON.stringify(${PLACES}) === "[[130,150],[330,170],[100,300]]"`)
}

async function coloured(first, room) {
  expectEqual("a colour", await added(room, 2, () => first.click('[data-colour="#e4572e"]')),
    Array(2).fill(["put", [["fill", "#e4572e"]]]))
  expectEqual("one step back", await added(room, 2, () => first.key("z", CONTROL)),
    Array(2).fill(["put", [["fill", "#3a86c8"]]]))
}

/** The places of new objects. */
const placesOf = (changes) => changes.map(([word, pairs]) => [word, new Map(pairs).get("x"), new Map(pairs).get("y")])

async function copied(first, second, room) {
  expectEqual("duplicates", placesOf(await added(room, 2, () => first.key("d", CONTROL))),
    [["new", 150, 170], ["new", 350, 190]])
  expectEqual("what is selected", await first.look(HEADING), "2 objects")
  expectEqual("one step back", await added(room, 2, () => first.key("z", CONTROL)), [["drop"], ["drop"]])
  await dragBox(first, [60, 60], [450, 260])
  await first.key("c", CONTROL)
  expectEqual("pasted by the other", placesOf(await added(room, 2, () => second.click("#paste"))),
    [["new", 150, 170], ["new", 350, 190]])
  expectEqual("one step back", await added(room, 2, () => second.key("z", CONTROL)), [["drop"], ["drop"]])
  await first.waitUntil("as before", `${COUNT} === 3`)
  expectEqual("cut", await added(room, 2, () => first.key("x", CONTROL)), [["drop"], ["drop"]])
  expectEqual("pasted", placesOf(await added(room, 2, () => first.key("v", CONTROL))),
    [["new", 150, 170], ["new", 350, 190]])
}

/** The Delete key after a click on a colour, and on the panel. */
async function deleted(first, second, room) {
  await first.click('[data-colour="#3a86c8"]')
  expectEqual("Delete", await added(room, 2, () => first.key("Delete")), [["drop"], ["drop"]])
  expectEqual("one step back", placesOf(await added(room, 2, () => first.key("z", CONTROL))),
    [["new", 350, 190], ["new", 150, 170]])
  expectEqual("what is selected", await first.look(HEADING), "2 objects")
  await first.click('[data-focus="all"]')
  await first.click("#panel .list li:last-child button")
  expectEqual("Backspace after a click in the list", await added(room, 1, () => first.key("Backspace")), [["drop"]])
  await first.key("z", CONTROL)
  await second.waitUntil("as before", `${COUNT} === 3`)
  await first.key("Escape")
}

async function all(first) {
  await first.key("a", CONTROL)
  expectEqual("what is selected", await first.look(HEADING), "3 objects")
  expectEqual("no text of the page is marked", await first.look("getSelection().toString()"), "")
  await first.key("Escape")
  expectEqual("none", await first.look(HEADING), "Objects (3)")
}

const groupOf = ([, pairs]) => pairs.find(([key]) => key === "group")[1]

async function groups(first, second, room) {
  await dragBox(first, [60, 60], [500, 270])
  const made = await added(room, 2, () => first.key("g", CONTROL))
  expectEqual("what is put", made.map(([word, pairs]) => [word, pairs.map(([key]) => key)]),
    Array(2).fill(["put", ["group"]]))
  expect("one group", groupOf(made[0]) === groupOf(made[1]) && groupOf(made[0]) !== "")
  await first.key("Escape")
  await second.waitUntil("the objects", `${COUNT} === 3`)
  for (const page of [first, second]) {
    await clickAt(page, [200, 200])
    expectEqual("a click on one", await page.look(HEADING), "2 objects")
  }
  await first.picture(join(PICTURES, "group.png"))
  const copies = await added(room, 2, () => first.key("d", CONTROL))
  expect("the copies are a group of their own",
    groupOf(copies[0]) === groupOf(copies[1]) && groupOf(copies[0]) !== groupOf(made[0]))
  await added(room, 2, () => first.key("z", CONTROL))
  expectEqual("taken apart", await added(room, 2, () => second.key("g", CONTROL | SHIFT)),
    Array(2).fill(["put", [["group", ""]]]))
  await waitForNews()
  await clickAt(first, [200, 200])
  expectEqual("a click then", await first.look(HEADING), "Rectangle")
  await first.key("Escape")
}

/** To group objects is in no conflict with a move of one of them. */
async function atOnce(first, second, room, server) {
  await dragBox(first, [60, 60], [500, 270])
  await signalRoom(server, "SIGSTOP")
  await first.key("g", CONTROL)
  await second.drag(await onScreen(second, [200, 200]), await onScreen(second, [210, 210]))
  await added(room, 3, () => signalRoom(server, "SIGCONT"))
  for (const page of [first, second]) {
    await page.waitUntil("the move", `${PLACES}.some(([x]) => x === 160)`)
    expectEqual("the versions", [await page.look(COUNT), await objectsOf(page)], [3, 3])
  }
  expectEqual("what both show", await first.look(BODIES), await second.look(BODIES))
}

/** Keys in a text field change the text alone. */
async function textField(first, room) {
  await first.key("Escape")
  await clickAt(first, [150, 330])
  await first.click("#panel label textarea")
  await first.write("ab")
  expectEqual("Backspace, arrows and Ctrl+A in the field", await added(room, 0, async () => {
    for (const key of ["Backspace", "ArrowLeft", "Delete"]) await first.key(key)
    await first.key("a", CONTROL)
  }), [])
  await first.key("Escape")
}

/** Three shapes and a group of two: each alignment is one step, and the group keeps its form. */
async function aligned(first, second, room) {
  await first.key("Escape")
  await first.key("a", CONTROL)
  await first.key("Delete")
  await first.waitUntil("nothing", `document.querySelectorAll(".version").length === 0`)
  for (const [x, y] of [[100, 100], [300, 140], [420, 180], [700, 220], [760, 300]]) {
    await draw(first, "rect", [x, y], [x + 40, y + 40])
  }
  await first.key("Escape")
  await first.drag(await onScreen(first, [680, 200]), await onScreen(first, [820, 360]))
  await first.key("g", CONTROL)
  await first.key("a", CONTROL)
  await first.picture(join(PICTURES, "align.png"))
  const places = (entries) => entries.map(([, pairs]) => pairs.map(([, value]) => value))
  expectEqual("aligned at the top", places(await added(room, 4, () => first.click('[data-focus="align-top"]'))),
    [[300, 100], [420, 100], [700, 100], [760, 180]])
  // From 100 to 800 there are 480 units free between four boxes of 40, 40, 40 and 100, so 160 between each two.
  const across = () => first.click('[data-focus="align-across"]')
  expectEqual("even gaps", places(await added(room, 1, across)), [[500, 100]])
  await second.waitUntil("what the other sees", `JSON.stringify(Object.values(${BODIES}).map(([, x, y]) => [x, y])) ===
    "[[100,100],[300,100],[500,100],[700,100],[760,180]]"`)
  await added(room, 1, () => first.key("z", CONTROL))
  expectEqual("all of it back", (await added(room, 4, () => first.key("z", CONTROL))).length, 4)
}
