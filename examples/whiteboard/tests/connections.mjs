/** Lost connections, reloaded pages, and servers that end. */

import { spawnSync } from "node:child_process"
import { once } from "node:events"
import { mkdtemp, readFile, rm } from "node:fs/promises"
import { createServer } from "node:net"
import { tmpdir } from "node:os"
import { join } from "node:path"
import { expect, expectEqual, waitUntil } from "../../../clients/js/tests/checks.js"
import { freePort } from "../../../clients/js/tests/program.js"
import { CUT_BEFORE, PASS, Proxy } from "../../../clients/js/tests/proxy.js"
import {
  BODIES, COUNT, PICTURES, RUN, STATE, waitForNews, draw, endAll, faults, isOpen, pageOf, serve, tabTo, watch,
} from "./people.mjs"

/** The page reports a lost connection in words, and sends the changes made meanwhile once it is connected again. */
export async function lostConnection(browser, address, first) {
  const page = await pageOf(address)
  const proxy = await Proxy.start(new URL(page.searchParams.get("server")).port)
  page.searchParams.set("server", `ws://${proxy.address}/`)
  const second = await browser.open(page.href, 1240, 720)
  await isOpen(second)
  const count = await first.look(COUNT)
  proxy.whatToDo = () => CUT_BEFORE
  proxy.cut()
  await second.waitUntil("the loss", `document.getElementById("state").dataset.state !== "open"`)
  await draw(second, "rect", [980, 620], [1120, 740])
  await second.waitUntil("the words", `/1 change is not saved yet/.test(${STATE})`)
  await second.picture(join(PICTURES, "lost.png"))
  expectEqual("what the other shows", await first.look(COUNT), count)
  proxy.whatToDo = () => PASS
  await isOpen(second)
  await first.waitUntil("the new object", `${COUNT} === ${count + 1}`)
  expectEqual("what both show", await first.look(BODIES), await second.look(BODIES))
  expectEqual("faults in the page", second.faults, [])
  proxy.end()
}

/** A browser does not tell a page why it is not let in. The page tries again, after growing pauses. */
export async function notLetIn(browser, address) {
  const page = await pageOf(address)
  const proxy = await Proxy.start(new URL(page.searchParams.get("server")).port)
  page.searchParams.set("server", `ws://${proxy.address}/`)
  proxy.answers.push(...Array(4).fill(["HTTP/1.1 403 Forbidden"]))
  const person = await browser.open(page.href, 1240, 720)
  await person.waitUntil("the page", `document.getElementById("state") !== null`)
  await person.waitUntil("the words", `${STATE} === "The connection failed. Trying again."`)
  await isOpen(person)
  expectEqual("the attempts", proxy.heads.length, 5)
  for (const [place, wait] of [100, 500, 1000, 2000].entries()) {
    const passed = proxy.heads[place + 1].at - proxy.heads[place].at
    expect(`attempt ${place + 2} came after ${passed} ms`, passed >= wait)
  }
  expectEqual("faults in the page", person.faults, [])
  await person.close()
  proxy.end()
}

/** A reloaded page keeps its site and shows its drawing. */
export async function loadedAnew(first, second, room) {
  const title = `document.getElementById("state").title`
  const site = /as site \d+/.exec(await first.look(title))[0]
  const bodies = await first.look(BODIES)
  const joins = () => room.record.filter(([word]) => word === "join").length
  const before = joins()
  for (let load = 0; load < 3; load++) {
    await first.reload()
    await isOpen(first)
    expect("the site", (await first.look(title)).includes(site))
    expectEqual("what it shows", await first.look(BODIES), bodies)
  }
  const count = await second.look(COUNT)
  await draw(first, "line", [30, 30], [90, 60])
  await second.waitUntil("the new object", `${COUNT} === ${count + 1}`)
  expectEqual("what both show", await first.look(BODIES), await second.look(BODIES))
  expectEqual("the joins", joins(), before)
  await tabTo(first, `document.activeElement === [...document.querySelectorAll(".version")].at(-1)`)
  await first.key("Delete")
  for (const page of [first, second]) await page.waitUntil("it is gone", `${COUNT} === ${count}`)
}

/** The page reports a room that started again. The person can save what the page had of the old one. */
export async function begunAnew(browser, address) {
  const page = await pageOf(address)
  const proxy = await Proxy.start(new URL(page.searchParams.get("server")).port)
  page.searchParams.set("server", `ws://${proxy.address}/`)
  const person = await browser.open(page.href, 1240, 720)
  await isOpen(person)
  await draw(person, "rect", [20, 700], [80, 760])
  await person.waitUntil("it is taken", `!/not saved yet/.test(${STATE})`)
  await waitForNews()
  const other = await serve()
  try {
    proxy.port = new URL((await pageOf(other.address)).searchParams.get("server")).port
    proxy.cut()
    await person.waitUntil("the messages", `document.querySelector("#reset .notice") !== null`)
    await isOpen(person)
    await person.picture(join(PICTURES, "reset.png"))
    expect("the words of the news", (await person.look(`document.getElementById("reset").textContent`))
      .startsWith("The room was started again"))
    expectEqual("what it shows", await person.look(COUNT), 0)
    const saved = (ending) => person.look(
      `fetch(document.querySelector('#reset a[download$="${ending}"]').href).then((it) => it.text())`)
    const lines = (await saved(".record")).split("\n")
    expectEqual("the first line of the record", lines[0], '["join",1]')
    expectEqual("the last one", JSON.parse(lines.at(-2)).slice(3),
      ["rect", [["x", 20], ["y", 700], ["width", 60], ["height", 60], ["fill", "#3a86c8"], ["name", ""]]])
    const [, , objects] = JSON.parse(await saved(".json"))
    expectEqual("the same in the file of the drawing", Object.fromEntries(objects.at(-1)[1][0]),
      { x: 20, y: 700, width: 60, height: 60, fill: "#3a86c8", name: "" })
    expect("the picture of it", (await saved(".svg")).includes('x="20" y="700" width="60" height="60"'))
    await person.click("#reset button")
    expectEqual("the messages then", await person.look(`document.getElementById("reset").textContent`), "")
    expectEqual("faults in the page", person.faults, [])
  } finally {
    proxy.end()
    other.server.kill()
  }
}

/**
 * A whiteboard and its room are killed, and started again over the same folder. They show the drawing, in a page that
 * stayed open and in a new one.
 */
export async function killed(browser) {
  const folder = await mkdtemp(join(tmpdir(), "whiteboard-room-"))
  const started = [await serve("--keep", folder)]
  const page = await pageOf(started[0].address)
  const proxy = await Proxy.start(new URL(page.searchParams.get("server")).port)
  page.searchParams.set("server", `ws://${proxy.address}/`)
  try {
    const person = await browser.open(page.href, 1240, 720)
    await isOpen(person)
    await draw(person, "rect", [120, 200], [380, 360])
    await draw(person, "ellipse", [500, 200], [700, 360])
    await person.waitUntil("all is taken", `!/not saved yet/.test(${STATE})`)
    const bodies = await person.look(BODIES)
    process.kill(-started[0].server.pid, "SIGKILL")
    await person.waitUntil("the loss", `document.getElementById("state").dataset.state !== "open"`)
    started.push(await serve("--keep", folder))
    const again = await pageOf(started[1].address)
    proxy.port = new URL(again.searchParams.get("server")).port
    proxy.cut()
    await isOpen(person)
    expectEqual("the messages", await person.look(`document.getElementById("reset").textContent`), "")
    expectEqual("what it shows", await person.look(BODIES), bodies)
    // Another address serves the page's files now.
    const other = await browser.open(again.href, 1240, 720)
    await isOpen(other)
    await other.waitUntil("the drawing", `${COUNT} === 2`)
    expectEqual("what the other shows", await other.look(BODIES), bodies)
    await draw(person, "line", [120, 500], [700, 500])
    await other.waitUntil("the new object", `${COUNT} === 3`)
    await other.picture(join(PICTURES, "killed.png"))
    faults(person, other)
  } finally {
    proxy.end()
    for (const { server } of started) endAll(server)
    await rm(folder, { recursive: true })
  }
}

/** If the room's server exits, its whiteboard exits too, with its own status. */
export async function roomGone() {
  const { server } = await serve("--in-memory")
  const closed = new Promise((tell) => server.once("close", tell))
  const [child] = (await readFile(`/proc/${server.pid}/task/${server.pid}/children`, "utf8")).trim().split(" ")
  process.kill(Number(child), "SIGKILL")
  expectEqual("the status", await closed, 3)
}

/** With --host the page and its room are served at another address of this machine, and only there. */
export async function atAnotherAddress(browser) {
  const { server, address } = await serve("--in-memory", "--host", "127.0.0.2")
  try {
    const { hostname, port } = new URL(address)
    expectEqual("the address to open", hostname, "127.0.0.2")
    expectEqual("the room's address", new URL((await pageOf(address)).searchParams.get("server")).hostname, "127.0.0.2")
    const elsewhere = await fetch(`http://127.0.0.1:${port}/`).then(() => "an answer", () => "nothing")
    expectEqual("what is at this machine's own address", elsewhere, "nothing")
    const pages = [await browser.open(address, 1024, 700), await browser.open(address, 1600, 1000)]
    for (const page of pages) await isOpen(page)
    await draw(pages[0], "rect", [120, 200], [380, 360])
    await pages[1].waitUntil("the rectangle", `${COUNT} === 1`)
    expectEqual("what both show", await pages[0].look(BODIES), await pages[1].look(BODIES))
    faults(...pages)
    for (const page of pages) await page.close()
  } finally {
    endAll(server)
  }
}

/** Listens at a port of this machine. Returns null if it is taken. */
async function listenAt(port) {
  const listener = createServer().listen(port, "127.0.0.1")
  try {
    await once(listener, "listening")
    return listener
  } catch {
    return null
  }
}

/** Whether nothing listens at this port and the next one. */
async function isPairFree(port) {
  const listeners = [await listenAt(port), await listenAt(port + 1)]
  for (const listener of listeners) listener?.close()
  return !listeners.includes(null)
}

/** Returns a port that is free, as the next one is. */
async function freePair() {
  for (;;) {
    const port = await freePort()
    if (port < 65535 && (await isPairFree(port))) return port
  }
}

/** With --port the room and the page have the same two ports at each start. So a link stays good. */
export async function samePorts(browser) {
  const port = await freePair()
  const folder = await mkdtemp(join(tmpdir(), "whiteboard-room-"))
  const links = []
  try {
    for (let start = 0; start < 2; start++) {
      const { server, address } = await serve("--keep", folder, "--port", `${port}`)
      const closed = once(server, "close")
      expectEqual("the address to open", address, `http://127.0.0.1:${port + 1}/`)
      links.push((await pageOf(address)).href)
      expectEqual("the room's address", new URL(links[start]).searchParams.get("server"), `ws://127.0.0.1:${port}/`)
      const page = await browser.open(links[0], 1240, 720)
      await isOpen(page)
      await page.waitUntil("the objects", `${COUNT} === ${start}`)
      await draw(page, "rect", [120, 200], [380, 360])
      const room = await watch(address)
      await waitUntil("it is taken", () => room.objects().length === start + 1)
      room.close()
      await page.close()
      endAll(server)
      await closed
    }
    expectEqual("the second link", links[1], links[0])
  } finally {
    await rm(folder, { recursive: true })
  }
}

/** Expects that the whiteboard does not start at this port, and names the one that is taken. */
function expectTaken(port, taken) {
  const { status, stdout, stderr } = spawnSync(RUN, ["--in-memory", "--port", `${port}`], { encoding: "utf8" })
  const words = `examples/whiteboard/run: port ${taken} is taken by another program: ` +
    "end that one, or give --port N for the ports N and N+1\n"
  expectEqual("the end", [status, stdout, stderr], [3, "", words])
}

/** A whiteboard names the port that another program has, and starts nothing. */
export async function portTaken() {
  const port = await freePair()
  for (const taken of [port, port + 1]) {
    const listener = await listenAt(taken)
    try {
      expectTaken(port, taken)
    } finally {
      listener.close()
    }
  }
}

/** At the usual ports the name of the room alone is a link. */
export async function atUsualPorts(browser) {
  if (!(await isPairFree(7000))) return console.log("        not tried: port 7000 or 7001 is taken")
  const { server, address } = await serve("--in-memory", "--port", "7000")
  try {
    const link = await pageOf(address)
    expectEqual("the link", link.href, "http://127.0.0.1:7001/examples/whiteboard/?room=people")
    const page = await browser.open(link.href, 1240, 720)
    await isOpen(page)
    faults(page)
    await page.close()
  } finally {
    endAll(server)
  }
}
