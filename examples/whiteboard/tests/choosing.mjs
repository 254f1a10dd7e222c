/** To choose among versions: by pointing at them, by keeping one, and by what they combine. */

import { join } from "node:path"
import { expect, expectEqual, waitUntil } from "../../../clients/js/tests/checks.js"
import { choicesAmong } from "../combinations.js"
import { BODIES, COUNT, PICTURES, added, step, twoPeople, watch } from "./people.mjs"

export async function choosing(browser) {
  await step("what versions combine", combined)
  await twoPeople(browser, async ({ first, second, room, address }) => {
    await step("to point at a version", () => pointing(first, second, room, address))
    await step("to choose key by key", () => byKeys(first, second, room))
    await step("to keep a version by its row", () => keepByRow(first, second, room, address))
  })
}

const versionsOf = (list) => list.map((attributes) => ({ attributes: new Map(Object.entries(attributes)) }))

function combined() {
  const places = [{ x: 1, y: 1 }, { x: 2, y: 1 }, { x: 3, y: 4 }]
  const fills = [{ fill: "#e4572e" }, { fill: "#4c9f70" }]
  const product = places.flatMap((place) => fills.map((fill) => ({ ...place, ...fill })))
  expectEqual("each place in each colour", choicesAmong(versionsOf(product)).map((keys) => [...keys].sort()),
    [["x", "y"], ["fill"]])
  const named = product.map((one, place) => ({ ...one, "by-1-1": `Anna ${place}` }))
  expectEqual("names do not count", choicesAmong(versionsOf(named)).length, 2)
  expectEqual("one is missing", choicesAmong(versionsOf(product.slice(1))), [])
  expectEqual("a single choice", choicesAmong(versionsOf(places)), [])
  expectEqual("no difference", choicesAmong(versionsOf([places[0]])), [])
}

/** Others change an object at once, each as given. */
async function changeAtOnce(address, object, changes) {
  const others = []
  for (const _ of changes) others.push(await watch(address))
  for (const other of others) await waitUntil("the object", () => other.has(object))
  const releases = others.map((other) => other.hold())
  others.forEach((other, place) => other.put(object, other.versions(object)[0], changes[place]))
  for (const other of others) await other.settled()
  for (const release of releases) release()
  for (const other of others) other.close()
}

const PLACES = [{ x: 100, y: 100 }, { x: 400, y: 300 }]
const FILLS = [{ fill: "#e4572e" }, { fill: "#4c9f70" }]
// The bodies that are seen: place and colour.
const SEEN = `[...document.querySelectorAll(".version")].filter((one) => getComputedStyle(one).visibility === "visible")
  .map((one) => [one.querySelector(".body").getBBox().x, one.querySelector(".body").getAttribute("fill")])`

async function pointing(first, second, room, address) {
  const { object } = room.create("rect", { x: 250, y: 200, width: 200, height: 120, fill: "#3a86c8", name: "" })
  await room.settled()
  await changeAtOnce(address, object, [...PLACES, ...FILLS])
  for (const page of [first, second]) await page.waitUntil("four versions", `${COUNT} === 4`)
  await first.click('.tag[data-letter="A"]')
  expectEqual("all are seen", (await first.look(SEEN)).length, 4)
  const card = await first.middleOf('.card[aria-label="Version C"] strong')
  await first.mouse("mouseMoved", card)
  await first.frame()
  const body = (await first.look(BODIES))[`${object}C`]
  expectEqual("what is seen alone", await first.look(SEEN), [[body[1], body[0]]])
  await first.picture(join(PICTURES, "version-alone.png"))
  await first.mouse("mouseMoved", [500, 650])
  await first.frame()
  expectEqual("all are seen again", (await first.look(SEEN)).length, 4)
}

const ROWS = `[...document.querySelectorAll(".combination")].map((row) =>
  [row.getAttribute("aria-label"), ...[...row.querySelectorAll("button")].map((one) => one.textContent)])`
const PICKED = `document.querySelector(".card.picked strong").textContent`
const pressed = (place) => `[...document.querySelectorAll(".combination")][${place}]
  .querySelector("button[aria-pressed=true]").textContent`

async function byKeys(first, second, room) {
  const rows = (await first.look(ROWS)).map((row) => row.sort()).sort()
  expectEqual("the choices", rows, [["green", "red", "colour"], ["100, 100", "400, 300", "position"]]
    .map((row) => row.sort()).sort())
  await first.picture(join(PICTURES, "combinations.png"))
  const choose = async (words) => {
    const focus = await first.look(`[...document.querySelectorAll(".combination button")]
      .find((one) => one.textContent === "${words}").dataset.focus`)
    await first.click(`[data-focus="${focus}"]`)
  }
  await choose("400, 300")
  await choose("green")
  const letter = (await first.look(PICKED)).at(-1)
  const body = Object.entries(await first.look(BODIES)).find(([key]) => key.endsWith(letter))[1]
  expectEqual("the version that is picked", body.slice(0, 3), ["#4c9f70", 400, 300])
  const now = [await first.look(pressed(0)), await first.look(pressed(1))]
  expectEqual("what is pressed", now.sort(), ["400, 300", "green"])
  expectEqual("the others are deleted", await added(room, 3, () => first.click(".card.picked .keep-only")),
    Array(3).fill(["drop"]))
  await second.waitUntil("one version", `${COUNT} === 1`)
}

/** With more versions than cards there are rows. A version that is not picked can be kept too. */
async function keepByRow(first, second, room, address) {
  const { object } = room.create("ellipse", { x: 700, y: 200, width: 100, height: 80, fill: "#3a86c8", name: "" })
  await room.settled()
  const moves = Array.from({ length: 8 }, (_, place) => ({ x: 600 + 20 * place, y: 500 + 10 * place }))
  await changeAtOnce(address, object, moves)
  for (const page of [first, second]) await page.waitUntil("all versions", `${COUNT} === 9`)
  await first.click(`.tag[data-object="${object}"][data-letter="C"]`)
  await first.picture(join(PICTURES, "rows.png"))
  expectEqual("no choices", await first.look(ROWS), [])
  const words = await first.look(`document.querySelector('.row[aria-label="Version D"] mark').textContent`)
  expect("it is not picked", (await first.look(PICKED)) !== "D")
  expectEqual("kept", await added(room, 7, () => first.click('[data-focus="keep-D"]')), Array(7).fill(["drop"]))
  await second.waitUntil("one version", `${COUNT} === 2`)
  const place = `(() => {
    const { x, y } = document.querySelector('.version[data-object="${object}"] .body').getBBox()
    return x + ", " + y
  })()`
  expectEqual("which one", await second.look(place), words)
}
