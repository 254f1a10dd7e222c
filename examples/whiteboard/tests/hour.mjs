/**
 * Three people draw for a while, each in a browser of their own, and see each other's pointers and drags. At the end the
 * record has what they drew, and nothing else. The word is the number of minutes, 60 by default. A step takes some
 * seconds, so people act about ten times a minute.
 */

import { mkdtemp, readFile, rm } from "node:fs/promises"
import { tmpdir } from "node:os"
import { join } from "node:path"
import { expect, expectEqual, waitUntil } from "../../../clients/js/tests/checks.js"
import { ALT, Chromium } from "./chromium.mjs"
import { counts, draw, endAll, faults, isOpen, onScreen, serve, step, watch } from "./people.mjs"

const MINUTES = Number(process.argv[2] ?? 60)
const NAMES = ["Anna", "Ben", "Carla"]
// Each person has a row of shapes in the drawing. A shape stays within its cell, so none lies over another.
const CELLS = 6
const CELL = { width: 150, height: 180, margin: 40, size: 60, reach: 40 }
const POINTS_BETWEEN_ACTIONS = [15, 30]
const POINT_MILLISECONDS = 150
const ACTIONS_BETWEEN_MEETINGS = 9

const GHOSTS = `[...document.querySelectorAll("#ghosts .ghost .body")].map((body) => body.getBBox())`
const HELD = `document.getElementById("held").textContent`
const POINTERS = `[...document.querySelectorAll(".pointer")].map((one) => one.textContent).sort()`
// What a rectangle has; `name` is the text on it.
const DRAWN = ["x", "y", "width", "height", "fill", "name"]

const pause = (milliseconds) => new Promise((resolve) => setTimeout(resolve, milliseconds))
const between = (low, high) => low + Math.floor(Math.random() * (high - low + 1))

/** A person, with the shapes drawn so far and the numbers of creations and puts. */
class Person {
  shapes = []
  made = 0
  moved = 0
  #last = Promise.resolve()

  constructor(number, page) {
    this.name = NAMES[number]
    this.row = number
    this.page = page
  }

  /** Runs an action of this person after all earlier ones. */
  next(act) {
    const done = this.#last.then(act)
    this.#last = done.catch(() => {})
    return done
  }

  /** Draws a rectangle in the next free cell. */
  async create() {
    const left = CELL.margin + this.shapes.length * CELL.width
    const top = CELL.margin + this.row * CELL.height
    // With Alt nothing snaps to other shapes.
    await this.page.withKeys(ALT, () => draw(this.page, "rect", [left, top], [left + CELL.size, top + CELL.size]))
    await this.page.key("Escape")
    this.shapes.push({ left, top, x: left, y: top })
    this.made += 1
  }

  /** Points at places of the drawing for some seconds. */
  async point() {
    for (let turn = between(...POINTS_BETWEEN_ACTIONS); turn > 0; turn--) {
      await this.page.mouse("mouseMoved", await onScreen(this.page, [between(0, 900), between(560, 640)]))
      await pause(POINT_MILLISECONDS)
    }
  }

  /** Drags a shape within its cell. `meanwhile` gets the place where it is then, before the mouse is released. */
  async drag(shape, meanwhile) {
    const to = { x: shape.left + between(0, CELL.reach), y: shape.top + between(0, CELL.reach) }
    if (to.x === shape.x && to.y === shape.y) to.x += 1
    const middle = ({ x, y }) => onScreen(this.page, [x + CELL.size / 2, y + CELL.size / 2])
    const [start, end] = [await middle(shape), await middle(to)]
    await this.page.withKeys(ALT, async () => {
      await this.page.press(start)
      await this.page.moveTo([(start[0] + end[0]) / 2, (start[1] + end[1]) / 2])
      await this.page.moveTo(end)
      await meanwhile(to)
      await this.page.release(end)
    })
    await this.page.key("Escape")
    Object.assign(shape, to)
    this.moved += 1
  }
}

/** Waits until a page shows the drag of a shape at this place. */
const seeDrag = (page, { x, y }) => page.waitUntil("the drag", `${GHOSTS}.some((ghost) =>
  Math.abs(ghost.x - ${x}) < 2 && Math.abs(ghost.y - ${y}) < 2)`)

/** A person drags an own shape, and the others see it while it goes on. */
async function dragSeen(person, others) {
  await person.drag(person.shapes[between(0, person.shapes.length - 1)], async (to) => {
    for (const other of others) await seeDrag(other.page, to)
  })
}

/** Two people reach for one shape: who comes second is told before, and takes it no further. */
async function reach(first, second) {
  const shape = first.shapes[0]
  await second.next(() => first.drag(shape, async (to) => {
    await seeDrag(second.page, to)
    const place = await onScreen(second.page, [shape.x + CELL.size / 2, shape.y + CELL.size / 2])
    await second.page.press(place)
    expectEqual(`what ${second.name} is told`, await second.page.look(HELD), `${first.name} is moving this`)
    await second.page.release(place)
    await second.page.key("Escape")
  }))
}

/** One person's hour. People reach for shapes of the one before them alone, so no two wait for each other. */
async function live(person, others, next, end) {
  for (let turn = 1; Date.now() < end; turn++) {
    await person.next(() => person.point())
    for (const other of others) {
      const isPointing = `${POINTERS}.includes("${person.name}")`
      await other.page.waitUntil(`${person.name}'s pointer`, isPointing)
    }
    if (person.shapes.length < CELLS) await person.next(() => person.create())
    else if (next && turn % ACTIONS_BETWEEN_MEETINGS === 0) await person.next(() => reach(person, next))
    else await person.next(() => dragSeen(person, others))
  }
}

/** Gives the person of this page a name. */
async function named(page, name) {
  await page.click("#own-name input")
  await page.write(name)
  await page.key("Enter")
}

/** Expects that the record has what the people drew, in memory and on the disk, and nothing of the people. */
async function onlyDrawn(room, people, file) {
  const made = people.reduce((sum, one) => sum + one.made, 0)
  const moved = people.reduce((sum, one) => sum + one.moved, 0)
  const wordsOf = (word) => room.record.filter(([first]) => first === word)
  await waitUntil("all entries", () => wordsOf("put").length >= moved)
  expectEqual("the numbers of creations and puts", [wordsOf("new").length, wordsOf("put").length], [made, moved])
  expectEqual("joins: three people and a client beside them", wordsOf("join").length, NAMES.length + 1)
  expectEqual("all entries", room.record.length, made + moved + NAMES.length + 1)
  const keys = new Set([...wordsOf("new"), ...wordsOf("put")].flatMap((entry) => entry.at(-1).map(([key]) => key)))
  expectEqual("keys that are no part of a drawing", [...keys].filter((key) => !DRAWN.includes(key)), [])
  const kept = await readFile(file, "utf8")
  expectEqual("the lines of the file", kept.split("\n").length - 1, room.record.length)
  for (const name of NAMES) expect(`nothing of ${name} in the file`, !kept.includes(name))
}

async function hour(browsers, address, file) {
  const people = []
  for (const [number, browser] of browsers.entries()) {
    const page = await browser.open(address, 1240, 720)
    await isOpen(page)
    await named(page, NAMES[number])
    people.push(new Person(number, page))
  }
  const room = await watch(address)
  const end = Date.now() + MINUTES * 60_000
  await step(`three people draw for ${MINUTES} minutes and see each other`, () =>
    Promise.all(people.map((one, place) => live(one, people.filter((other) => other !== one), people[place + 1], end))))
  await step("the record has what they drew, and nothing else", () => onlyDrawn(room, people, file))
  await step("no page had a fault", () => faults(...people.map((one) => one.page)))
  console.log(`${people.map((one) => one.made + one.moved).join(", ")} changes, ${room.record.length} entries`)
  room.close()
}

const folder = await mkdtemp(join(tmpdir(), "whiteboard-room-"))
const { server, address } = await serve("--keep", folder, "--sessions", "50")
const browsers = []
const end = async () => {
  for (const browser of browsers) await browser.end()
  endAll(server)
  await rm(folder, { recursive: true, force: true })
}
for (const signal of ["SIGINT", "SIGTERM", "SIGHUP"]) process.on(signal, () => end().then(() => process.exit(1)))
try {
  for (const _ of NAMES) browsers.push(await Chromium.start())
  await hour(browsers, address, join(folder, "people.record"))
} finally {
  await end()
}
console.log(`${counts.passed} passed, ${counts.failed} failed`)
process.exit(counts.passed > 0 && counts.failed === 0 ? 0 : 1)
