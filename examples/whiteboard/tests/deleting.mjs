/** Deletions, and their conflicts with concurrent changes. */

import { join } from "node:path"
import { expect, expectEqual } from "../../../clients/js/tests/checks.js"
import {
  BODIES, CARDS, COUNT, HEADING, LIST, NOTICE, PICTURES, VERSIONS, added, allDrag, waitForNews, draw, isOpen,
  objectsOf, onScreen, tabTo,
} from "./people.mjs"

const LAKE = '.version[aria-label^="Rectangle “Lake”"]'

// How far three people drag a version: upwards, so that it is not under what the page tells below.
const APART = [[-60, -80], [0, -30], [60, -160]]

/** Returns the tag of a version. */
const tag = (object, letter) => `.tag[data-object="${object}"][data-letter="${letter}"]`

/** Moves by a key and deletes at once. After half a second the page would send the move. */
const moveAndDelete = (page, key) => Promise.all([page.key("ArrowRight"), page.key(key)])

/** A key deletes the focused version, together with the moves by arrow keys just before. */
export async function deleteByKey(first, second, room) {
  const count = await second.look(COUNT)
  const newest = `[...document.querySelectorAll(".version")].at(-1)`
  for (const key of ["Delete", "Backspace"]) {
    await draw(first, "ellipse", [40, 40], [160, 120])
    await second.waitUntil("the new object", `${COUNT} === ${count + 1}`)
    await tabTo(first, `document.activeElement === ${newest}`)
    expectEqual(key, await added(room, 1, () => moveAndDelete(first, key)), [["drop"]])
    for (const page of [first, second]) await page.waitUntil("it is gone", `${COUNT} === ${count}`)
    expectEqual("what has the focus", await first.look("document.activeElement.id"), "board")
    expect("nothing is selected", (await first.look(HEADING)).startsWith("Objects"))
  }
  expectEqual("a key more", await added(room, 0, () => first.key("Delete")), [])
}

/** A button deletes an object. If another person has selected it, that selection ends. */
export async function deleteByButton(first, second, room) {
  const count = await second.look(COUNT)
  await draw(first, "rect", [40, 40], [160, 120])
  await second.waitUntil("the new object", `${COUNT} === ${count + 1}`)
  await second.press(await onScreen(second, [100, 80]))
  await second.release(await onScreen(second, [100, 80]))
  const before = [await first.look(HEADING), await second.look(HEADING)]
  expectEqual("what both have selected", before, ["Rectangle", "Rectangle"])
  expectEqual("the button", await first.look(`document.querySelector('[data-focus="delete"]').textContent`), "Delete")
  expectEqual("what it does", await added(room, 1, () => first.click('[data-focus="delete"]')), [["drop"]])
  for (const page of [first, second]) {
    await page.waitUntil("it is gone", `${COUNT} === ${count}`)
    const { length } = await page.look(LIST)
    expectEqual("what the list has", [await page.look(HEADING), length], [`Objects (${length})`, await objectsOf(page)])
  }
}

/** One of two versions is deleted by a person who has seen both. The other one stays, without a notice. */
export async function deleteVersion(first, second, room) {
  const [object] = (await first.look(VERSIONS)).find(([, , , words]) => words.includes("“Lake”"))
  const old = await first.look(BODIES)
  await first.click(`${LAKE}[data-letter="A"] .body`)
  const button = '[data-focus="delete-A"]'
  expectEqual("the button", await first.look(`document.querySelector('${button}').textContent`), "Delete version A")
  expectEqual("what it does", await added(room, 1, () => first.click(button)), [["drop"]])
  for (const page of [first, second]) {
    await page.waitUntil("one version", `document.querySelectorAll('${LAKE}').length === 1`)
    expectEqual("what is left", (await page.look(BODIES))[`${object}A`], old[`${object}B`])
    await page.click(`${LAKE} .body`)
    expectEqual("its words", await page.look(HEADING), "Rectangle “Lake”")
    expectEqual("what is said of a deletion", await page.look(NOTICE), null)
    expectEqual("the cards", await page.look(CARDS), [])
  }
}

/**
 * One of three versions, which a person had picked, is deleted. That person must pick again, and then keeps one alone.
 */
export async function keepOnly(pages, room) {
  const [first, second, third] = pages
  const object = await allDrag(pages, '.version[aria-label="Line"]', APART)
  const version = (letter) => `.version[data-object="${object}"][data-letter="${letter}"]`
  const old = await second.look(BODIES)
  await second.click('[data-focus="pick-B"]')
  expectEqual("the buttons", await second.look(`[...document.querySelectorAll(".card.picked button, .delete")]
    .map((one) => one.textContent)`), ["Working on B", "Keep only this", "Delete version B"])
  await second.picture(join(PICTURES, "three-versions.png"))
  const keep = () => second.click('.card.picked .keep-only')
  expectEqual("what it does", await added(room, 2, keep), [["drop"], ["drop"]])
  for (const page of pages) {
    await page.waitUntil("one version", `document.querySelectorAll('.version[data-object="${object}"]').length === 1`)
    expectEqual("what is left", (await page.look(BODIES))[`${object}A`], old[`${object}B`])
    expectEqual("what is said of a deletion", await page.look(NOTICE), null)
  }
  await allDrag(pages, version("A"), APART)
  await third.click('[data-focus="pick-C"]')
  const bodies = await second.look(BODIES)
  await first.click(tag(object, "C"))
  expectEqual("what a key does", await added(room, 1, () => moveAndDelete(first, "Delete")), [["drop"]])
  await third.waitUntil("two versions", `document.querySelectorAll(".card").length === 2`)
  const { [`${object}C`]: _, ...others } = bodies
  expectEqual("the others", await third.look(BODIES), others)
  expectEqual("what is picked", (await third.look(CARDS)).map(([, , isPicked]) => isPicked), [false, false])
  expectEqual("the buttons", await third.look(`document.querySelector('.delete')`), null)
  await third.picture(join(PICTURES, "pick-again.png"))
  await first.click(tag(object, "A"))
  expectEqual("what a key does", await added(room, 1, () => moveAndDelete(first, "Delete")), [["drop"]])
  await third.waitUntil("one version", `document.querySelectorAll('.version[data-object="${object}"]').length === 1`)
  expectEqual("what is left", (await third.look(BODIES))[`${object}A`], bodies[`${object}B`])
}

/** The first person deletes an object while the second one drags it. */
async function deleteWhileDragged(first, second, grip, [x, y]) {
  const from = await second.middleOf(grip)
  const to = [from[0] + x, from[1] + y]
  await second.press(from)
  await second.moveTo(to)
  await first.click(grip)
  const count = await first.look(COUNT)
  await first.key("Delete")
  await first.waitUntil("it is gone", `${COUNT} === ${count - 1}`)
  await waitForNews()
  await second.release(to)
  await first.waitUntil("it is there again", `${COUNT} === ${count}`)
}

const DELETED = "Somebody deleted this while others changed it. You see it as they changed it. Keep it Delete it too"

/**
 * An object that was deleted while another person moved it stays, and both get a notice. One keeps it; then it is
 * deleted.
 */
export async function deletedMeanwhile(first, second, room) {
  await deleteWhileDragged(first, second, `${LAKE} .body`, [-150, -100])
  expectEqual("what is said", await second.look(NOTICE), DELETED)
  await second.picture(join(PICTURES, "deleted-meanwhile.png"))
  await second.click('[data-focus="keep"]')
  expectEqual("what is said to who keeps it", await second.look(NOTICE), null)
  expectEqual("what she has selected", await second.look(HEADING), "Rectangle “Lake”")
  expect("the list tells it", (await first.look(LIST)).includes("Rectangle “Lake”deleted and changed"))
  await first.picture(join(PICTURES, "deleted-in-list.png"))
  await first.click(`${LAKE} .body`)
  expectEqual("what is said to the other", await first.look(NOTICE), DELETED)
  const colour = () => first.click('[data-colour="#3a86c8"]')
  expectEqual("a colour", await added(room, 1, colour), [["put", [["fill", "#3a86c8"]]]])
  await second.waitUntil("the colour", `document.querySelector('${LAKE} .body').getAttribute("fill") === "#3a86c8"`)
  expectEqual("what is said to who keeps it, afterwards", await second.look(NOTICE), null)
  await deleteWhileDragged(first, second, `${LAKE} .body`, [-80, 20])
  expectEqual("what is said of another deletion", await second.look(NOTICE), DELETED)
  await first.click(`${LAKE} .body`)
  expectEqual("Delete it too", await added(room, 1, () => first.click('[data-focus="delete-too"]')), [["drop"]])
  for (const page of [first, second]) {
    await page.waitUntil("it is gone", `document.querySelector('${LAKE}') === null`)
    expect("nothing is selected", (await page.look(HEADING)).startsWith("Objects"))
    expect("it is in no list", (await page.look(LIST)).every((words) => !words.includes("Lake")))
  }
}

/**
 * The same with one of two versions: the notice names it. A person who holds the button down continues with the
 * remaining version.
 */
export async function versionDeletedMeanwhile(first, second, third) {
  const [object, old] = (await third.look(VERSIONS)).find(([, , , words]) => words.startsWith("Ellipse “Moon”"))
  const grip = tag(object, old)
  const place = await third.middleOf(grip)
  await third.press(place)
  await deleteWhileDragged(first, second, grip, [-200, 80])
  await waitForNews()
  await third.release(place)
  const [, letter] = (await second.look(VERSIONS)).find(([, , , words]) => words.startsWith("Ellipse “Moon”"))
  const words = "Somebody deleted a version while others changed it. Still here: " +
    `version ${letter}. Keep version ${letter} Delete version ${letter} too`
  expectEqual("what is said", await second.look(NOTICE), words)
  for (const page of [second, third]) {
    const picked = (await page.look(CARDS)).filter(([, , isPicked]) => isPicked)
    expectEqual("what is picked", picked.map(([one]) => one), [`Version ${letter}`])
  }
  await second.picture(join(PICTURES, "version-deleted-meanwhile.png"))
  await second.click('[data-focus="delete-too"]')
  await first.waitUntil("it is gone", `document.querySelector('[aria-label*="Moon"]') === null`)
  for (const page of [first, second]) await page.click('.version[aria-label="Ellipse “Sun”"] .body')
  expectEqual("what is said of the other", [await first.look(NOTICE), await second.look(NOTICE)], [null, null])
}

/** A late page shows what the others show, and nothing deleted. */
export async function lateAfterAll(browser, address, first) {
  const page = await browser.open(address, 1240, 720)
  await isOpen(page)
  await page.waitUntil("all versions", `${COUNT} === ${await first.look(COUNT)}`)
  expectEqual("what it shows", await page.look(BODIES), await first.look(BODIES))
  expectEqual("what the list has", (await page.look(LIST)).length, await objectsOf(first))
  expectEqual("faults in the page", page.faults, [])
  await page.picture(join(PICTURES, "late-after-all.png"))
}
