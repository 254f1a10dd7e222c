/** Who made versions, and when: names in the record, where people allow it, and what the panel says of them. */

import { join } from "node:path"
import { expect, expectEqual, waitUntil } from "../../../clients/js/tests/checks.js"
import { startRenewingServer } from "../../../clients/js/tests/renewing_port.js"
import { CONTROL } from "./chromium.mjs"
import {
  COUNT, PICTURES, added, allDrag, draw, endAll, faults, isOpen, onScreen, pageOf, serve, signalRoom, step, twoPeople,
} from "./people.mjs"

const MAKERS = `[...document.querySelectorAll(".card .maker")].map((one) => one.textContent)`
const KEYS = /^by-/
const [FIRST, SECOND] = ["by-1-1", "by-1-2"]

export async function makers(browser) {
  await twoPeople(browser, async ({ first, second, room, server }) => {
    await step("names are not kept unless a person allows it", () => notAllowed(first, second, room))
    await step("who made a version, and when", () => versionsHaveMakers(first, second, room))
    await step("names make no versions", () => compatible(first, second, room, server))
    await step("names with undo and copies", () => undoneAndCopied(first, second, room))
    await step("an object with few keys left", () => fewKeys(first, second, room))
    await step("a name that is taken back", () => takenBack(first, room))
  })
  await inRenewedRooms(browser)
}

/** The keys and names of a change. */
const namesOf = ([, pairs]) => pairs.filter(([key]) => KEYS.test(key))

async function tellName(page, name, isKept) {
  if (!await page.look(`document.getElementById("own-name").checkVisibility()`)) await page.click("#people li button")
  await page.look(`document.querySelector("#own-name input").select()`)
  await page.write(name)
  if (isKept) await page.click("#own-name label:last-child")
  await page.key("Enter")
}

async function notAllowed(first, second, room) {
  await tellName(first, "Anna", false)
  expectEqual("the names in a creation", namesOf((await added(room, 1, () =>
    draw(first, "rect", [180, 180], [420, 340])))[0]), [])
  await second.waitUntil("the rectangle", `${COUNT} === 1`)
  await allDrag([first, second], ".version", [[-60, 120], [90, 60]])
  await first.waitUntil("the versions", `${MAKERS}.length === 2`)
  const words = await first.look(MAKERS)
  expectEqual("who made them", words.map((one) => one.split(", ")[0]).sort(), ["someone", "you"])
  await first.click('[data-focus="pick-A"]')
  await first.click('.card.picked .keep-only')
  await second.waitUntil("one version", `${COUNT} === 1`)
}

/** The clock's time now, in the form of the page. */
const clock = () => new Date().toTimeString().slice(0, 5)

async function versionsHaveMakers(first, second, room) {
  await tellName(first, "Anna", true)
  await first.picture(join(PICTURES, "makers-asked.png"))
  const stored = await first.look(`localStorage.getItem("whiteboard-name-with-changes")`)
  expectEqual("what the browser keeps", stored, "yes")
  const start = room.record.length
  const times = [clock()]
  await allDrag([first, second], ".version", [[40, -60], [90, 60]])
  times.push(clock())
  await waitUntil("both changes", () => room.record.length === start + 2)
  const puts = room.record.slice(start).map((entry) => entry.at(-1).filter(([key]) => KEYS.test(key)))
  expectEqual("the names", puts.flat(), [[FIRST, "Anna"]])
  const shown = async (page) => (await page.look(MAKERS)).map((one) => one.split(", "))
  for (const page of [first, second]) await page.waitUntil("the versions", `${MAKERS}.length === 2`)
  const [firsts, seconds] = [await shown(first), await shown(second)]
  expectEqual("what the first sees", firsts.map(([name]) => name).sort(), ["someone", "you"])
  expectEqual("what the second sees", seconds.map(([name]) => name).sort(), ["Anna", "you"])
  for (const [, time] of [...firsts, ...seconds]) expect(`the time ${time} of ${times}`, times.includes(time))
  const marks = await second.look(`[...document.querySelectorAll(".card dl")].map((one) => one.textContent).join()`)
  expect(`no name among the attributes: ${marks}`, !/by-|Anna/.test(marks))
  await second.picture(join(PICTURES, "makers.png"))
  await second.click('[data-focus="pick-A"]')
  await second.click('.card.picked .keep-only')
  await first.waitUntil("one version", `${COUNT} === 1`)
}

/** Two people who both allow names change different things of an object at once: it has one version. */
async function compatible(first, second, room, server) {
  await tellName(second, "Ben", true)
  await draw(first, "ellipse", [700, 500], [800, 580])
  const ellipse = '.version[aria-label="Ellipse"]'
  await second.waitUntil("the ellipse", `document.querySelector('${ellipse}') !== null`)
  await second.click(`${ellipse} .body`)
  await signalRoom(server, "SIGSTOP")
  await first.drag(await onScreen(first, [750, 540]), await onScreen(first, [770, 550]))
  await second.click('[data-colour="#e4572e"]')
  const changes = await added(room, 2, () => signalRoom(server, "SIGCONT"))
  expectEqual("the names", changes.flatMap(namesOf), [[SECOND, "Ben"]])
  for (const page of [first, second]) {
    const fill = `document.querySelector('${ellipse} .body').getAttribute("fill")`
    await page.waitUntil("both changes", `${fill} === "#e4572e"`)
    expectEqual("the versions", await page.look(`document.querySelectorAll('${ellipse}').length`), 1)
  }
  const [name] = room.objects().filter((one) => room.kind(one) === "ellipse")
  expectEqual("all names", namesOf([null, [...room.versions(name)[0].attributes]]), [[FIRST, "Anna"], [SECOND, "Ben"]])
}

/** Undo sets what was drawn, and leaves names alone. A copy has the name of the person who pastes it alone. */
async function undoneAndCopied(first, second, room) {
  const [, undone] = (await added(room, 1, () => second.key("z", CONTROL)))[0]
  expectEqual("what undo sets", undone, [["fill", "#3a86c8"]])
  await second.key("c", CONTROL)
  const copies = await added(room, 1, () => second.key("v", CONTROL))
  expectEqual("the names of a copy", copies.flatMap(namesOf), [[SECOND, "Ben"]])
  await added(room, 1, () => second.click("[data-focus=delete]"))
  const restored = await added(room, 1, () => second.key("z", CONTROL))
  expectEqual("the names of what came back", restored.flatMap(namesOf), [[SECOND, "Ben"]])
  await added(room, 1, () => second.click("[data-focus=delete]"))
  await first.key("Escape")
}

async function fewKeys(first, second, room) {
  const { object, version } = room.create("rect", { x: 900, y: 60, width: 90, height: 60, fill: "#f2b134", name: "" })
  const more = Array.from({ length: 52 }, (_, place) => [`key-${place}`, place])
  let last = version
  for (let from = 0; from < more.length; from += 13) last = room.put(object, last, more.slice(from, from + 13)).version
  await room.settled()
  const body = `.version[data-object="${object}"] .body`
  await first.waitUntil("the object", `document.querySelector('${body}') !== null`)
  await first.click(body)
  const paint = () => first.click('[data-colour="#e4572e"]')
  expectEqual("with four keys left", await added(room, 1, async () => {
    await first.drag(await onScreen(first, [945, 90]), await onScreen(first, [955, 100]))
  }), [["put", [["x", 910], ["y", 70], [FIRST, "Anna"]]]])
  const rest = Array.from({ length: 6 }, (_, place) => [`more-${place}`, place])
  room.put(object, room.versions(object)[0], rest)
  await room.settled()
  await second.waitUntil("the object", `document.querySelector('${body}') !== null`)
  await second.click(body)
  expectEqual("with three keys left", await added(room, 1, () => second.click('[data-colour="#4c9f70"]')),
    [["put", [["fill", "#4c9f70"]]]])
  expectEqual("of one whose name is there", await added(room, 1, paint), [["put", [["fill", "#e4572e"]]]])
  room.drop(object, room.versions(object)[0])
  await room.settled()
}

/** Who takes the consent back has no name in later versions. */
async function takenBack(first, room) {
  await first.click('.version[aria-label="Ellipse"] .body')
  await first.click("#people li button")
  await first.click("#keep-name")
  await first.key("Escape")
  expectEqual("the next change", await added(room, 1, () => first.click('[data-colour="#8d6cab"]')),
    [["put", [["fill", "#8d6cab"], [FIRST, ""]]]])
  expectEqual("the one after it", await added(room, 1, () => first.click('[data-colour="#1d2733"]')),
    [["put", [["fill", "#1d2733"]]]])
  await first.key("Escape")
}

async function inRenewedRooms(browser) {
  const whiteboard = await serve()
  const { server, address, close } = await startRenewingServer()
  const page = await pageOf(whiteboard.address)
  page.searchParams.set("server", address)
  page.searchParams.set("room", "r")
  const pages = []
  try {
    for (let person = 0; person < 2; person++) {
      pages.push(await browser.open(page.href, 1240, 720))
      await isOpen(pages[person])
    }
    await step("names in a renewed room", () => renewed(...pages, server))
    await step("no page had a fault", () => faults(...pages))
  } finally {
    for (const one of pages) await one.close()
    close()
    endAll(whiteboard.server)
  }
}

/** The names of before stay with the versions, and the keys of the new room are others. */
async function renewed(first, second, server) {
  await tellName(first, "Anna", true)
  await tellName(second, "Ben", true)
  await draw(first, "rect", [300, 200], [500, 320])
  await second.waitUntil("the rectangle", `${COUNT} === 1`)
  await allDrag([first, second], ".version", [[-60, 120], [90, 60]])
  server.renew()
  await waitUntil("both are in the new room", () => server.newest.sites.size === 2)
  for (const page of [first, second]) await isOpen(page)
  await second.click(".tag")
  await first.click(".tag")
  await first.waitUntil("the versions", `${MAKERS}.length === 2`)
  const words = await first.look(MAKERS)
  expect(`whom the first sees: ${words}`, words.some((one) => /^Ben, before \d\d:\d\d$/.test(one)))
  const start = server.newest.record.length
  await first.click('[data-colour="#e4572e"]')
  await waitUntil("the colour", () => server.newest.record.length > start)
  const own = server.newest.record.at(-1).at(-1)
  const [site] = server.newest.record.at(-1)[1]
  expectEqual("the change", own, [["fill", "#e4572e"], [`by-2-${site}`, "Anna"]])
  await second.waitUntil("the colour", `document.querySelector('.version .body[fill="#e4572e"]') !== null`)
  expect("whom the second sees", (await second.look(MAKERS)).some((one) => /Anna.*, \d\d:\d\d$/.test(one)))
  expectEqual("the versions", await second.look(COUNT), 2)
}
