/** Concurrent changes of the same objects, and what each person sees of them. */

import { expect, expectEqual } from "../../../clients/js/tests/checks.js"
import { CONTROL } from "./chromium.mjs"
import {
  BODIES, CARDS, COUNT, HEADING, STATE, VERSIONS, added, waitForNews, draw, isOpen, onScreen, tabTo,
} from "./people.mjs"

export async function twoDraw(first, second) {
  await draw(first, "rect", [180, 180], [420, 340])
  await draw(first, "line", [120, 640], [1000, 560])
  await second.waitUntil("the other's objects", `${COUNT} === 2`)
  await second.click('[data-colour="#f2b134"]')
  await draw(second, "ellipse", [700, 130], [900, 290])
  await first.waitUntil("the other's object", `${COUNT} === 3`)
  expectEqual("what both show", await first.look(BODIES), await second.look(BODIES))
  const names = (await first.look(VERSIONS)).map(([, , , words]) => words)
  expectEqual("the objects", names, ["Rectangle", "Line", "Ellipse"])
}

export async function name(first, second) {
  await first.click('.version[aria-label="Rectangle"]')
  await first.click('#panel textarea')
  await first.write("Lake")
  await first.key("Enter", CONTROL)
  await second.waitUntil("the name", `document.querySelector('.version[aria-label="Rectangle “Lake”"]') !== null`)
}

/** Both press the button before either releases it. */
export async function dragAtOnce(first, second) {
  const from = await first.middleOf('.version[aria-label="Rectangle “Lake”"] .body')
  await first.press(from)
  await second.press(from)
  await first.moveTo(await onScreen(first, [260, 420]))
  await second.moveTo(await onScreen(second, [560, 470]))
  await first.release(await onScreen(first, [260, 420]))
  await waitForNews()
  expectEqual("what the second shows while she drags", await second.look(COUNT), 3)
  await second.release(await onScreen(second, [560, 470]))
  for (const page of [first, second]) await page.waitUntil("two versions", `${COUNT} === 4`)
  expectEqual("where both stand", await first.look(BODIES), await second.look(BODIES))
  const words = (await first.look(VERSIONS)).map(([, , , one]) => one).filter((one) => one.includes("version")).sort()
  expectEqual("the versions", words, ["Rectangle “Lake”, version A of 2", "Rectangle “Lake”, version B of 2"])
  expect("the page shows both versions", (await first.look(STATE)).includes("1 of 3 objects has several versions"))
  const cards = await first.look(CARDS)
  const differences = cards.map(([letter, marks]) => [letter, marks.length])
  expectEqual("the differences", differences, [["Version A", 1], ["Version B", 1]])
  expect("the places differ", cards[0][1][0] !== cards[1][1][0])
}

/** The second person changes the first one's version, and then their own: each time only that version changes. */
export async function pickAndPaint(first, second) {
  const other = (await second.look(CARDS)).find(([, , isPicked]) => !isPicked)[0].at(-1)
  await paint(first, second, other, "#e4572e")
  await paint(first, second, other === "A" ? "B" : "A", "#4c9f70")
  expectEqual("what differs", (await second.look(CARDS)).map(([, marks]) => marks.length), [2, 2])
}

async function paint(first, second, letter, colour) {
  const old = await second.look(BODIES)
  const object = (await second.look(VERSIONS)).find(([, , , words]) => words.includes("version"))[0]
  await second.click(`[data-focus="pick-${letter}"]`)
  const picked = (await second.look(CARDS)).filter(([, , isPicked]) => isPicked)
  expectEqual("what is picked", picked.map(([words]) => words), [`Version ${letter}`])
  await second.click(`[data-colour="${colour}"]`)
  const body = `.version[data-object="${object}"][data-letter="${letter}"] .body`
  for (const page of [first, second]) {
    await page.waitUntil("the colour", `document.querySelector('${body}').getAttribute("fill") === "${colour}"`)
    const now = await page.look(BODIES)
    expectEqual("all bodies", now, { ...old, [object + letter]: [colour, ...old[object + letter].slice(1)] })
  }
}

/** Two people write a name concurrently: both versions are at one place and share it. */
export async function nameAtOnce(first, second) {
  for (const page of [first, second]) await page.click('.version[aria-label="Ellipse"] .body')
  for (const [page, word] of [[first, "Moon"], [second, "Sun"]]) {
    await page.click("#panel textarea")
    await page.write(word)
  }
  await first.key("Enter", CONTROL)
  await waitForNews()
  await second.key("Enter", CONTROL)
  const count = `document.querySelectorAll('.version[aria-label*="version"]').length`
  for (const page of [first, second]) await page.waitUntil("two versions", `${count} === 4`)
  const words = (await first.look(VERSIONS)).map(([, , , one]) => one.split(",")[0]).sort()
  const lakes = ["Rectangle “Lake”", "Rectangle “Lake”"]
  expectEqual("the names", words, ["Ellipse “Moon”", "Ellipse “Sun”", "Line", ...lakes])
}

export async function late(first, third) {
  await isOpen(third)
  await third.waitUntil("all versions", `${COUNT} === 5`)
  expectEqual("what it shows", await third.look(BODIES), await first.look(BODIES))
}

/** Keys alone create, move and enlarge an object. */
export async function keys(first, second) {
  const count = await second.look(COUNT)
  await first.click('[data-tool="ellipse"]')
  await tabTo(first, `document.activeElement.id === "board"`)
  await first.key("Enter")
  await second.waitUntil("the new object", `${COUNT} === ${count + 1}`)
  const body = `[...document.querySelectorAll(".version .body")].at(-1)`
  const box = () => second.look(`[${body}.cx, ${body}.cy, ${body}.rx].map((one) => one.baseVal.value)`)
  const [x, y, width] = await box()
  await tabTo(first, `document.activeElement === [...document.querySelectorAll(".version")].at(-1)`)
  for (const key of ["ArrowRight", "ArrowRight", "ArrowDown"]) await first.key(key)
  await second.waitUntil("it moved", `${body}.cx.baseVal.value === ${x + 20} && ${body}.cy.baseVal.value === ${y + 10}`)
  await first.key("ArrowRight", 8)
  await second.waitUntil("it is larger", `${body}.rx.baseVal.value === ${width + 5}`)
}

/** If no version is picked, the page says so, and nothing changes. */
export async function toldToPick(third) {
  const before = await third.look(BODIES)
  await third.click("#panel .list button")
  await third.click('[data-colour="#4c9f70"]')
  await third.waitUntil("the words", `document.getElementById("refusals").textContent.startsWith("Pick a version")`)
  expectEqual("the drawing", await third.look(BODIES), before)
}

/** Each action of a person is one entry, with all its changes. */
export async function onePut(first, room) {
  const act = async (what, count, doIt, wanted) => expectEqual(what, await added(room, count, doIt), wanted)
  const drag = async (from, to) => first.drag(await onScreen(first, from), await onScreen(first, to))
  await act("a new object", 1, () => draw(first, "rect", [520, 40], [640, 120]), [["new",
    [["x", 520], ["y", 40], ["width", 120], ["height", 80], ["fill", "#3a86c8"], ["name", ""]]]])
  await act("a move", 1, () => drag([580, 80], [610, 101]), [["put", [["x", 550], ["y", 61]]]])
  await act("another size", 1, () => drag([670, 141], [690, 171]), [["put", [["width", 140], ["height", 110]]]])
  await act("a move on one axis", 1, () => first.key("ArrowRight"), [["put", [["x", 560], ["y", 61]]]])
  await act("another width", 1, () => first.key("ArrowLeft", 8), [["put", [["width", 130], ["height", 110]]]])
  await act("a colour", 1, () => first.click('[data-colour="#8d6cab"]'), [["put", [["fill", "#8d6cab"]]]])
}

/** The page draws unusual values of other clients as far as possible. A change of the size makes them regular. */
export async function oddShapes(first, second, room) {
  const far = room.create("rect", { x: -(2n ** 62n), y: "5,5", width: 2n ** 62n, fill: 7, name: 5n })
  const turned = room.create("rect", { x: 1100, y: 500, width: -120, height: -80, fill: "#f2b134" })
  const body = ([site, number]) => `document.querySelector('[data-object="${site},${number}"] .body')`
  const box = (name) => `["x", "y", "width", "height"].map((key) => ${body(name)}.getAttribute(key))`
  for (const page of [first, second]) {
    await page.waitUntil("both", `${body(far.name)} !== null && ${body(turned.name)} !== null`)
  }
  expectEqual("one far off", await first.look(box(far.name)), ["-100000", "0", "100000", "80"])
  expectEqual("one that is turned", await first.look(box(turned.name)), ["980", "420", "120", "80"])
  await first.click(`[data-object="${turned.name}"] .body`)
  const resize = async () => first.drag(await onScreen(first, [1100, 500]), await onScreen(first, [1120, 510]))
  expectEqual("another size", await added(room, 1, resize),
    [["put", [["x", 980], ["y", 420], ["width", 140], ["height", 90]]]])
  room.drop(far.name, [])
  room.drop(turned.name, room.versions(turned.name)[0])
  for (const page of [first, second]) {
    await page.waitUntil("both are gone", `${body(far.name)} === null && ${body(turned.name)} === null`)
  }
  expectEqual("what has the focus", await first.look("document.activeElement.id"), "board")
}

/** News of others redraws the panel all the time. A pressed element stays until its release. */
export async function pressMeanwhile(first, room) {
  const { object, version } = room.create("rect", { x: 40, y: 40, width: 60, height: 60, name: "Buoy" })
  const item = `[data-focus="${object}"]`
  await first.waitUntil("the new object", `document.querySelector('${item}') !== null`)
  let last = version
  const moves = setInterval(() => (last = room.put(object, last, { x: last.attributes.get("x") + 2 }).version), 30)
  try {
    const place = await first.middleOf(item)
    await first.press(place)
    await new Promise((resolve) => setTimeout(resolve, 500))
    await first.release(place)
    expectEqual("what is selected", await first.look(HEADING), "Rectangle “Buoy”")
  } finally {
    clearInterval(moves)
  }
  await first.key("Escape")
  await room.settled()
  const x = last.attributes.get("x")
  await first.waitUntil("all moves", `document.querySelector('[data-object="${object}"] .body').getBBox().x === ${x}`)
  room.drop(object, last)
  await first.waitUntil("it is gone", `document.querySelector('[data-object="${object}"]') === null`)
}
