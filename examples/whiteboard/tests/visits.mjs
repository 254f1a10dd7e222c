/** A person who comes back, a room that takes nobody new, links that lead nowhere, and a lost network. */

import { join } from "node:path"
import { expect, expectEqual, waitUntil } from "../../../clients/js/tests/checks.js"
import { WebSocket } from "../../../clients/js/tests/websocket.js"
import { Room } from "../../../clients/js/grace.js"
import {
  BODIES, COUNT, MESSAGES, PICTURES, STATE, draw, isOpen, onScreen, serve, signalRoom, step,
} from "./people.mjs"
import { inOwnRooms } from "./rooms.mjs"

export async function visits(browser) {
  await inOwnRooms(browser, {
    "a person who comes back is the same site": sameSite,
    "the first view": firstView,
    "the view after a reload": viewAfterReload,
    "a link that names no room": badName,
    "a tool that stays": keptTool,
    "a room that takes nobody new": fullRoom,
  })
  await step("a lost network", () => noNetwork(browser))
}

/** A tab that is closed and opened again takes no other site of the room's 256. Two tabs at once are two sites. */
async function sameSite(room) {
  const client = await room.watch()
  const first = await room.open()
  await draw(first, "rect", [100, 100], [220, 180])
  await first.waitUntil("it is saved", `!/not saved/.test(${STATE})`)
  const joins = () => client.record.filter(([word]) => word === "join").length
  await waitUntil("the rectangle", () => client.record.length === 3)
  expectEqual("the joins, the client's too", joins(), 2)
  await room.close(first)
  const again = await room.open()
  await again.waitUntil("the rectangle", `${COUNT} === 1`)
  await draw(again, "ellipse", [300, 100], [420, 180])
  await waitUntil("the ellipse", () => client.objects().length === 2)
  expectEqual("the joins then", joins(), 2)
  const other = await room.open()
  await other.waitUntil("both", `${COUNT} === 2`)
  await waitUntil("one more join", () => joins() === 3)
}

/** The first view is in actual size if the drawing fits into the window. Otherwise the page says how to get there. */
async function firstView(room) {
  const client = await room.watch()
  const drawn = async (words, x, y) => {
    if (x !== undefined) client.create("rect", { x, y, width: 200, height: 120, fill: "#f2b134", name: "" })
    await client.settled()
    const page = await room.browser.open(room.link, 1240, 720)
    try {
      const count = client.objects().length
      const isThere = `document.getElementById("state")?.dataset.state === "open" && ${COUNT} === ${count}`
      await page.waitUntil("the drawing", isThere)
      const scale = await page.look(`document.getElementById("scale").textContent`)
      const isShown = await page.look(`document.querySelectorAll(".edge:not([hidden])").length === 0`)
      await page.picture(join(PICTURES, `first-view-${count}.png`))
      expectEqual(words, [scale === "100 %", isShown], [count < 3, true])
      const hint = await page.look(`document.getElementById("hint").textContent`)
      expectEqual(`what it says: ${hint}`, hint.startsWith("This is the whole drawing. Press 1"), count === 3)
      if (count < 3) return
      await page.key("1")
      expectEqual("after 1", await page.look(`document.getElementById("scale").textContent`), "100 %")
    } finally {
      await page.close()
    }
  }
  await drawn("an empty drawing")
  await drawn("one object far away", 5000, 4000)
  await drawn("two that fit", 5400, 4300)
  await drawn("one more, beyond the window", 7000, 4000)
}

async function viewAfterReload(room) {
  const page = await room.open()
  await draw(page, "rect", [100, 100], [220, 180])
  await page.waitUntil("it is saved", `!/not saved/.test(${STATE})`)
  await page.key("1")
  await page.wheel(await onScreen(page, [300, 300]), 120, 80)
  const view = `document.getElementById("shapes").getAttribute("transform")`
  const before = await page.look(view)
  await page.reload()
  await isOpen(page)
  await page.waitUntil("the rectangle", `${COUNT} === 1`)
  await page.waitUntil(`the view ${before}`, `${view} === "${before}"`)
  expectEqual("the tab's title", await page.look("document.title"), `${room.name} – Whiteboard`)
}

async function badName(room) {
  const link = new URL(room.link)
  link.searchParams.set("room", "Über")
  const page = await room.browser.open(link.href, 1240, 720)
  try {
    await page.waitUntil("the end", `document.getElementById("state")?.dataset.state === "closed"`)
    const words = await page.look(`document.querySelector("#loading p").textContent`)
    expect(words, words.startsWith("There is no drawing at this address: ") && words.includes("Über"))
    await page.picture(join(PICTURES, "bad-name.png"))
    await page.follow("#loading a")
    await isOpen(page)
    expect("a new drawing", /^[0-9a-f]{32}$/.test(new URL(await page.look("location.href")).searchParams.get("room")))
  } finally {
    await page.close()
  }
}

/** A tool that is taken twice draws one shape after the other. */
async function keptTool(room) {
  const page = await room.open()
  const tool = `document.getElementById("board").dataset.tool`
  await page.key("r")
  await page.key("r")
  for (const x of [100, 400]) {
    await page.drag(await onScreen(page, [x, 100]), await onScreen(page, [x + 100, 300]))
    expectEqual("the tool", await page.look(tool), "rect")
  }
  await page.waitUntil("both", `${COUNT} === 2`)
  await page.picture(join(PICTURES, "kept-tool.png"))
  await page.key("Escape")
  expectEqual("after Escape", await page.look(tool), "select")
  await page.key("o")
  await page.drag(await onScreen(page, [100, 500]), await onScreen(page, [200, 600]))
  expectEqual("after a tool that was taken once", await page.look(tool), "select")
}

// A room takes so many joins.
const SITES = 256

async function fullRoom(room) {
  const first = await room.open()
  await draw(first, "rect", [100, 100], [220, 180])
  for (let site = 2; site <= SITES; site++) {
    const client = new Room(room.server, room.name, { connect: (it) => new WebSocket(it), roomInPath: true })
    await waitUntil("a client is in the room", () => client.state === "open")
    client.close()
  }
  // Another host name is another origin of the browser, so this person has no site here.
  const link = new URL(room.link)
  link.hostname = "localhost"
  const visitor = await room.browser.open(link.href, 1240, 720)
  try {
    await visitor.waitUntil("the rectangle", `${COUNT} === 1`)
    await first.drag(await onScreen(first, [160, 140]), await onScreen(first, [360, 440]))
    await visitor.waitUntil("a move", `Object.values(${BODIES})[0][1] === 300`)
    await visitor.picture(join(PICTURES, "looking-on.png"))
    await draw(visitor, "ellipse", [500, 100], [600, 200])
    const words = "The room takes nobody new, so you can look at it, but not change it."
    await visitor.waitUntil(words, `${MESSAGES}.includes("${words}")`)
    expectEqual("what is drawn", await visitor.look(COUNT), 1)
    expectEqual("faults in the page", visitor.faults, [])
  } finally {
    await visitor.close()
  }
}

async function noNetwork(browser) {
  const { server, address } = await serve("--in-memory")
  const page = await browser.open(address, 1240, 720)
  try {
    await isOpen(page)
    const conditions = { offline: true, latency: 0, downloadThroughput: -1, uploadThroughput: -1 }
    await page.ask("Network.enable")
    await page.ask("Network.emulateNetworkConditions", conditions)
    await signalRoom(server, "SIGSTOP")
    await draw(page, "rect", [100, 100], [220, 180])
    await page.waitUntil("the words", `${STATE}.startsWith("This device has no network.")`)
    await page.ask("Network.emulateNetworkConditions", { ...conditions, offline: false })
    await signalRoom(server, "SIGCONT")
    await page.waitUntil("it is saved", `${STATE} === "Connected."`)
    expectEqual("faults in the page", page.faults, [])
  } finally {
    await page.close()
    server.kill()
  }
}
