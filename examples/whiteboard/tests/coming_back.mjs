/** What a reload of the page keeps: the steps for undo, a text in the field, and a move by keys. */

import { join } from "node:path"
import { expect, expectEqual, waitUntil } from "../../../clients/js/tests/checks.js"
import { Proxy } from "../../../clients/js/tests/proxy.js"
import { CONTROL, SHIFT } from "./chromium.mjs"
import {
  BODIES, COUNT, MESSAGES, PICTURES, STATE, added, draw, endAll, isOpen, onScreen, pageOf, serve, signalRoom, step,
} from "./people.mjs"
import { inOwnRooms } from "./rooms.mjs"

const UNDO = ["z", CONTROL]
const REDO = ["Z", CONTROL | SHIFT]

export async function comingBack(browser) {
  await inOwnRooms(browser, {
    "steps for undo and redo after a reload": stepsAfterReload,
    "a step after a reload that somebody has built on": builtOn,
    "a deletion after a reload, and what was done before it": deletion,
    "what was in hand at a reload": inHand,
    "another tab has no steps": otherTab,
  })
  await step("steps that were not saved at a reload", () => unsaved(browser))
  await step("no steps in a room that started again", () => startedAgain(browser))
}

async function reload(page) {
  await page.reload()
  await isOpen(page)
}

const isSaved = (page) => page.waitUntil("it is saved", `!/not saved/.test(${STATE})`)
const canUndo = (page) => page.look(`!document.getElementById("undo").disabled`)
const boxOf = async (page) => Object.values(await page.look(BODIES)).map(([, ...box]) => box)

async function stepsAfterReload(room) {
  const page = await room.open()
  const client = await room.watch()
  await draw(page, "rect", [100, 100], [220, 180])
  await page.drag(await onScreen(page, [160, 140]), await onScreen(page, [260, 240]))
  await page.click('[data-colour="#e4572e"]')
  await added(client, 1, () => page.key(...UNDO))
  await isSaved(page)
  await reload(page)
  await page.waitUntil("the rectangle", `${COUNT} === 1`)
  expectEqual("redo", await added(client, 1, () => page.key(...REDO)), [["put", [["fill", "#e4572e"]]]])
  expectEqual("undo", await added(client, 1, () => page.key(...UNDO)), [["put", [["fill", "#3a86c8"]]]])
  expectEqual("undo of the move", await added(client, 1, () => page.key(...UNDO)), [["put", [["x", 100], ["y", 100]]]])
  await reload(page)
  await page.waitUntil("the rectangle", `${COUNT} === 1`)
  await page.picture(join(PICTURES, "undo-after-reload.png"))
  expectEqual("undo of the creation", await added(client, 1, () => page.click("#undo")), [["drop"]])
  expectEqual("what is left", await canUndo(page), false)
  expectEqual("redo of all", (await added(client, 3, async () => {
    for (let times = 0; times < 3; times++) await page.key(...REDO)
  })).map(([word]) => word), ["new", "put", "put"])
  await page.waitUntil("as before", `JSON.stringify(Object.values(${BODIES})) === '[["#e4572e",200,200,120,80]]'`)
}

async function builtOn(room) {
  const [page, other] = [await room.open(), await room.open()]
  const client = await room.watch()
  await draw(page, "rect", [100, 100], [220, 180])
  await other.waitUntil("the rectangle", `${COUNT} === 1`)
  await isSaved(page)
  await reload(page)
  await page.waitUntil("the rectangle", `${COUNT} === 1`)
  await added(client, 1, async () => {
    await other.drag(await onScreen(other, [160, 140]), await onScreen(other, [260, 240]))
  })
  await page.waitUntil("the move", `Object.values(${BODIES})[0][1] === 200`)
  expectEqual("undo", await added(client, 0, () => page.key(...UNDO)), [])
  const words = "This can't be undone: somebody has changed it since."
  await page.waitUntil(words, `${MESSAGES}.includes("${words}")`)
}

/** An object that undo has brought back has another name. Its earlier steps are undone all the same. */
async function deletion(room) {
  const page = await room.open()
  const client = await room.watch()
  await draw(page, "rect", [100, 100], [220, 180])
  await page.click('[data-colour="#4c9f70"]')
  await added(client, 1, () => page.key("Delete"))
  await isSaved(page)
  await reload(page)
  expectEqual("undo of the deletion", (await added(client, 1, () => page.key(...UNDO)))[0][0], "new")
  await reload(page)
  await page.waitUntil("it is back", `${COUNT} === 1`)
  expectEqual("undo of the colour", await added(client, 1, () => page.key(...UNDO)), [["put", [["fill", "#3a86c8"]]]])
  expectEqual("undo of the creation", await added(client, 1, () => page.key(...UNDO)), [["drop"]])
}

/** A text in the field, one in the panel, and a move by keys that has not ended yet. */
async function inHand(room) {
  const page = await room.open()
  const client = await room.watch()
  await draw(page, "rect", [100, 100], [300, 260])
  await page.key("F2")
  await page.write("Harbour")
  await reload(page)
  const text = `document.querySelector(".version text")?.textContent`
  await page.waitUntil("the text", `${text} === "Harbour"`)
  await page.click(".version .body")
  await page.click('[data-focus="text"]')
  await page.write("Old")
  await reload(page)
  await page.waitUntil("the text of the panel", `${text}.includes("Old")`)
  await page.click(".version .body")
  await page.key("ArrowRight")
  await reload(page)
  await page.waitUntil("the move", `Object.values(${BODIES})[0]?.[1] === 110`)
  await waitUntil("all is in the record", () => client.record.filter(([word]) => word === "put").length === 3)
  expectEqual("undo of the move", await added(client, 1, () => page.key(...UNDO)), [["put", [["x", 100], ["y", 100]]]])
}

async function otherTab(room) {
  const page = await room.open()
  await draw(page, "rect", [100, 100], [220, 180])
  await isSaved(page)
  const other = await room.open()
  await other.waitUntil("the rectangle", `${COUNT} === 1`)
  expectEqual("what another tab can undo", await canUndo(other), false)
}

/** The changes that the server has not answered are sent again, and can be undone. */
async function unsaved(browser) {
  const { server, address } = await serve("--in-memory")
  const page = await browser.open(address, 1240, 720)
  try {
    await isOpen(page)
    await draw(page, "rect", [100, 100], [220, 180])
    await isSaved(page)
    await signalRoom(server, "SIGSTOP")
    await page.drag(await onScreen(page, [160, 140]), await onScreen(page, [260, 240]))
    await page.ask("Page.enable")
    const asked = page.next("Page.javascriptDialogOpening")
    const reloading = page.reload()
    await asked
    await page.ask("Page.handleJavaScriptDialog", { accept: true })
    await reloading
    await signalRoom(server, "SIGCONT")
    await isOpen(page)
    expectEqual("the moved rectangle", await boxOf(page), [[200, 200, 120, 80]])
    await page.key(...UNDO)
    await page.waitUntil("it is back", `Object.values(${BODIES})[0]?.[1] === 100`)
    await isSaved(page)
    await page.key(...UNDO)
    await page.waitUntil("it is gone", `${COUNT} === 0`)
    expectEqual("faults in the page", page.faults, [])
  } finally {
    await page.close()
    endAll(server)
  }
}

/** A room that started again has other operations of the same names. */
async function startedAgain(browser) {
  const servers = [await serve(), await serve()]
  const [link, other] = await Promise.all(servers.map(({ address }) => pageOf(address)))
  const portOf = ({ searchParams }) => new URL(searchParams.get("server")).port
  const proxy = await Proxy.start(portOf(link))
  link.searchParams.set("server", `ws://${proxy.address}/`)
  const page = await browser.open(link.href, 1240, 720)
  try {
    await isOpen(page)
    await draw(page, "rect", [100, 100], [220, 180])
    await isSaved(page)
    expect("it can be undone", await canUndo(page))
    // The page itself still has its connection to the first room.
    proxy.port = portOf(other)
    await reload(page)
    await page.waitUntil("nothing is drawn", `${COUNT} === 0`)
    expectEqual("what can be undone", await canUndo(page), false)
    await draw(page, "ellipse", [100, 100], [220, 180])
    await page.key(...UNDO)
    await page.waitUntil("the ellipse is gone", `${COUNT} === 0`)
    expectEqual("faults in the page", page.faults, [])
  } finally {
    await page.close()
    proxy.end()
    for (const { server } of servers) endAll(server)
  }
}
