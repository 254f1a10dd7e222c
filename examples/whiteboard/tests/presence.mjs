/** Who is here: names, pointers, what the others hold and drag, and the notes that say so. */

import { join } from "node:path"
import { expect, expectEqual, waitUntil } from "../../../clients/js/tests/checks.js"
import { WebSocket } from "../../../clients/js/tests/websocket.js"
import { Arrivals } from "../arrivals.js"
import { Glide } from "../glide.js"
import { PALETTE, fittingName, readNote, writeNote } from "../notes.js"
import { arrivalWords, heldWords, initialsOf } from "../words.js"
import { PICTURES, added, draw, faults, isOpen, onScreen, pageOf, serve, step, tabTo, watch } from "./people.mjs"

export async function presence(browser) {
  await step("the form of a note", form)
  await step("notes of any form", anyForm)
  await step("names that fit", names)
  await step("words about people", words)
  await step("who came and who left, in few messages", arrivals)
  await step("a glide", glide)
  const { server, address } = await serve("--in-memory", "--sessions", "200")
  try {
    await threePeople(browser, address)
  } finally {
    server.kill()
  }
}

async function threePeople(browser, address) {
  const first = await browser.open(address, 1240, 720)
  await isOpen(first)
  const room = await watch(address)
  await step("a page that is alone tells no pointer", () => alone(first, room))
  const others = []
  for (let person = 0; person < 2; person++) {
    others.push(await browser.open(address, 1240, 720))
    await isOpen(others.at(-1))
  }
  const pages = [first, ...others]
  await step("each has a name", () => named(pages))
  await step("all see the pointers of the others", () => pointers(pages))
  await step("a drag is seen while it goes on", () => drag(first, others, room))
  await step("a drag that is ended by Escape", () => cancelledDrag(first, others[0]))
  await step("what somebody holds says so", () => held(pages, room))
  await step("a page that is not seen tells no pointer", () => hidden(first, others[0]))
  await step("hostile notes", () => hostile(pages, address))
  await step("the name is asked for once", () => askedOnce(first))
  await step("a small screen", () => smallScreen(browser, address))
  await step("many people", () => manyPeople(first, address))
  await step("a pointer that rests fades", () => fades(first, others[0]))
  await step("a page that is closed is gone", () => gone(pages))
  await step("no page had a fault", () => faults(...pages))
  for (const page of pages.slice(0, 2)) await page.close()
  room.close()
}

// ---- without a browser

const FAR = 100000
const HELD = { object: [256, 16384], place: 31 }
const FULL = {
  name: "Anna", colour: PALETTE.length - 1, pointer: [-FAR, -FAR], selected: HELD,
  drag: { ...HELD, box: { x: -FAR, y: -FAR, width: -FAR, height: -FAR }, made: 16384 }, sketch: null,
}
const NOTHING = { name: "", colour: null, pointer: null, selected: null, drag: null, sketch: null }

function form() {
  expectEqual("a note that was written", readNote(writeNote(FULL)), FULL)
  expectEqual("an empty note", [writeNote({}), readNote("{}")], ["{}", NOTHING])
  const longNames = ["x".repeat(300), "\"\\".repeat(200), "é".repeat(200), "漢".repeat(200), "🙂".repeat(200)]
  for (const name of longNames) {
    const text = writeNote({ ...FULL, name })
    expect(`the length of ${text}`, Buffer.byteLength(text) <= 256)
    expect("the name that is left", name.startsWith(readNote(text).name) && readNote(text).name !== "")
  }
  const box = { x: 1.4, y: 1e9, width: -1e9, height: -0.2 }
  const drawn = readNote(writeNote({ pointer: [1.6, 2.4], drag: { ...HELD, box, made: 0 } }))
  expectEqual("lengths", [drawn.pointer, Object.values(drawn.drag.box).map(Number)], [[2, 2], [1, FAR, -FAR, 0]])
  expectEqual("a pointer far away", readNote(writeNote({ pointer: [FAR + 1, 0] })), NOTHING)
}

function anyForm() {
  const texts = [
    "", "{", "null", "true", "5", "\"n\"", "[]", "[[]]", "{\"n\":5}", "{\"n\":null,\"c\":\"1\"}", "9".repeat(256),
    "{\"n\":\"\\u0000\\u0007\\u202e\\ud800\\u200b\"}", "{\"c\":8}", "{\"c\":-1}", "{\"c\":1.5}", "{\"p\":[1e999,1]}",
    "{\"p\":[1]}", "{\"p\":[1,2,3]}", "{\"p\":[\"1\",2]}", "{\"p\":{\"0\":1,\"1\":2,\"length\":2}}", "{\"p\":[1e9,1]}",
    "{\"s\":[0,1,0]}", "{\"s\":[1,1,32]}", "{\"s\":[1,1]}", "{\"s\":\"1,1,0\"}", "{\"d\":[1,1,0,1,1,1]}",
    "{\"d\":[1,1,0,1,1,1,1,null]}", "{\"d\":[1,1,0,1,1,1,1e300,1]}", "{\"__proto__\":{\"n\":\"A\"}}", "[".repeat(256),
  ]
  for (const text of texts) expectEqual(text, readNote(text), NOTHING)
  expectEqual("what is of the form stays", readNote("{\"n\":\"A\\nB\",\"p\":[1,2],\"s\":7}"),
    { ...NOTHING, name: "A B", pointer: [1, 2] })
}

function names() {
  expectEqual("spaces", fittingName(" \t Anna \n  Berg "), "Anna Berg")
  const unseen = ["\u200d", "\u3164", "\u0301", "\u2066\u2069", "  "]
  expectEqual("what is not seen", unseen.map(fittingName), unseen.map(() => ""))
  expectEqual("joiners in a word", fittingName("می\u200cخواهم"), "می\u200cخواهم")
  expectEqual("letters of two units", [...fittingName("🙂".repeat(99))].length, 34)
}

function words() {
  expectEqual("one moves", heldWords(["Anna"], ["Anna", "Ben"]), "Anna is moving this")
  expectEqual("two have selected", heldWords([], ["Anna", "Ben"]), "Anna and Ben have selected this")
  expectEqual("many", heldWords(["A", "B", "C", "D"], []), "4 people are moving this")
  expectEqual("arrivals", arrivalWords(["A", "B", "C"], ["D"]), "A, B and C are here. D has left.")
  expectEqual("initials", ["Anna Berg", "anna", "🙂", "Guest 12"].map(initialsOf), ["AB", "A", "🙂", "G1"])
}

async function arrivals() {
  const told = []
  let here = []
  const people = new Arrivals(() => here, (text) => told.push(text))
  const see = (...names) => {
    here = names.map((name) => ({ site: name.charCodeAt(0), name }))
    people.look()
  }
  const rest = () => new Promise((resolve) => setTimeout(resolve, 2100))
  see("Anna")
  await rest()
  expectEqual("at the beginning", told, [])
  see("Anna", "Guest")
  see("Anna", "Guest", "Ben")
  see("Ben", "Gerda")
  see("Ben", "Gerda", "Carla")
  see("Ben", "Gerda")
  await rest()
  expectEqual("what happened within two seconds", told, ["Ben and Gerda are here. Anna has left."])
  see("Ben")
  see("Ben", "Gina")
  await rest()
  expectEqual("somebody who comes back", told.length, 1)
  here = null
  people.look()
  await rest()
  see("Ben", "Gina")
  await rest()
  expectEqual("a connection that was lost", told.length, 1)
  see()
  people.begin()
  see("Dora")
  await rest()
  expectEqual("in a new room", told.length, 1)
  see()
  await rest()
  expectEqual("who left there", told.at(-1), "Dora has left.")
}

function glide() {
  const place = new Glide([0, 0])
  place.go([130, 260], 1000)
  expectEqual("on its way", [place.at(1000), place.at(1065), place.at(1130), place.at(9000)],
    [[0, 0], [65, 130], [130, 260], [130, 260]])
  place.go([0, 130], 1065)
  expectEqual("from where it is", [place.at(1065), place.at(1195)], [[65, 130], [0, 130]])
  expectEqual("whether it moves", [place.isMoving(1100), place.isMoving(1195)], [true, false])
}

// ---- in a browser

const LIST = `[...document.querySelectorAll("#people .name")].map((one) => one.textContent)`
const POINTERS = `[...document.querySelectorAll(".pointer")].map((one) => one.textContent)`
const HOLDS = `[...document.querySelectorAll(".hold")].map((one) => one.textContent)`
const WORDS = `document.getElementById("held").textContent`
const GHOSTS = `document.querySelectorAll("#ghosts .ghost").length`
const BODY_X = `document.querySelector(".version .body").getBBox().x`
const ASKS = `document.getElementById("own-name").checkVisibility()`

const same = (one, other) => `JSON.stringify(${one}) === ${JSON.stringify(JSON.stringify(other))}`
/** The tip of a person's pointer in the window. */
const tipOf = (name) => `(() => {
  const { x, y } = [...document.querySelectorAll(".pointer")].find((one) => one.textContent === "${name}")
    .getBoundingClientRect()
  return [x, y]
})()`
const pointAt = async (page, place) => page.mouse("mouseMoved", await onScreen(page, place))

/** The notes that a client beside the pages reads. */
const notesOf = (room) => [...room.notes.values()].filter((text) => text !== "").map(readNote)

async function alone(first, room) {
  expectEqual("who is here", await first.look(LIST), ["Guest 1 (you)"])
  await draw(first, "rect", [180, 180], [420, 340])
  for (const x of [500, 520, 540]) await pointAt(first, [x, 500])
  await waitUntil("the note", () => notesOf(room).length === 1 && notesOf(room)[0].selected !== null)
  expectEqual("the note", notesOf(room), [{ ...NOTHING, colour: 0, selected: { object: [1, 1], place: 0 } }])
  await first.key("Escape")
}

async function named(pages) {
  const [first, second, third] = pages
  await third.waitUntil("all of them", same(LIST, ["Guest 4 (you)", "Guest 1", "Guest 3"]))
  expectEqual("whether it asks", await first.look(ASKS), true)
  await third.click("#own-name button")
  expectEqual("whether it asks who told none", await third.look(ASKS), false)
  await second.click("#own-name input")
  await second.write("Ben <b>")
  // A press on the drawing saves the name.
  const paper = await onScreen(second, [900, 600])
  await second.press(paper)
  await second.release(paper)
  await first.click("#own-name input")
  await first.write("Anna Berg")
  await first.key("Enter")
  expectEqual("whether it asks then", await first.look(ASKS), false)
  await first.waitUntil("the others", same(LIST, ["Anna Berg (you)", "Ben <b>", "Guest 4"]))
  await third.waitUntil("the names", same(LIST, ["Guest 4 (you)", "Anna Berg", "Ben <b>"]))
}

async function pointers(pages) {
  const [first, second, third] = pages
  const places = [[200, 600], [600, 100], [900, 400]]
  for (const [place, page] of pages.entries()) await pointAt(page, places[place])
  await first.waitUntil("the pointers", same(`${POINTERS}.sort()`, ["Ben <b>", "Guest 4"]))
  await third.waitUntil("the pointers", same(`${POINTERS}.sort()`, ["Anna Berg", "Ben <b>"]))
  const isAt = ([x, y], name) => `Math.hypot(${tipOf(name)}[0] - ${x}, ${tipOf(name)}[1] - ${y}) < 2`
  await first.waitUntil("where it is", isAt(await onScreen(first, places[2]), "Guest 4"))
  await third.click("#zoom-in")
  await third.waitUntil("where it is in a larger scale", isAt(await onScreen(third, places[1]), "Ben <b>"))
  await third.key("-")
  await second.picture(join(PICTURES, "people.png"))
  const under = await onScreen(first, places[2])
  expectEqual("what takes a press", await first.look(`document.elementFromPoint(${under}).id`), "board")
}

/** Notes in each frame whether the other sees the drag or its end: never the old place between them. */
const watchSteps = (page) => page.look(`void (function next() {
  window.steps ??= []
  const ghost = document.querySelector(".ghost .body"), body = document.querySelector(".version .body")
  steps.push([ghost?.getBBox().x ?? null, body.getBBox().x])
  requestAnimationFrame(next)
})()`)

async function drag(first, [second, third], room) {
  const object = (await first.look(`document.querySelector(".version").dataset.object`))
  await watchSteps(second)
  const from = await onScreen(first, [300, 260])
  const entries = await added(room, 1, async () => {
    await first.press(from)
    for (const x of [340, 380, 420]) {
      await first.moveTo(await onScreen(first, [x, 400]))
      const ghost = `document.querySelector(".ghost .body")?.getBBox().x`
      await second.waitUntil("the drag", `Math.abs(${ghost} - ${x - 120}) < 2`)
    }
    for (const page of [second, third]) await page.waitUntil("who drags", same(HOLDS, ["Anna Berg"]))
    expectEqual("the shape itself", await third.look(BODY_X), 180)
    await second.picture(join(PICTURES, "live-drag.png"))
    await first.release(await onScreen(first, [420, 400]))
  })
  expectEqual("the entries", entries, [["put", [["x", 300], ["y", 320]]]])
  for (const page of [second, third]) {
    const body = `document.querySelector('.version[data-object="${object}"] .body').getBBox().x`
    await page.waitUntil("the end", `${GHOSTS} === 0 && ${body} === 300`)
  }
  const steps = (await second.look("steps")).map(([ghost, body]) => ghost ?? body)
  const back = steps.filter((x, place) => place > 0 && x < steps[place - 1] - 1)
  expectEqual("steps back", back, [])
  expectEqual("what is pale", await second.look(`document.querySelectorAll(".taken-along").length`), 0)
}

async function cancelledDrag(first, second) {
  await first.press(await onScreen(first, [420, 400]))
  await first.moveTo(await onScreen(first, [700, 600]))
  await second.waitUntil("the drag", `${GHOSTS} === 1`)
  await first.key("Escape")
  await first.release(await onScreen(first, [700, 600]))
  await second.waitUntil("its end", `${GHOSTS} === 0`)
  expectEqual("the shape", await second.look(BODY_X), 300)
  await first.key("Escape")
  await second.waitUntil("nothing selected", same(HOLDS, []))
}

async function held([first, second, third], room) {
  const place = await onScreen(first, [420, 400])
  expectEqual("the words before", await second.look(WORDS), "")
  await first.press(place)
  await first.release(place)
  await second.waitUntil("the outline", same(HOLDS, ["Anna Berg"]))
  await tabTo(third, `document.activeElement.matches(".version")`)
  expectEqual("the words at the focus", await third.look(WORDS), "Anna Berg has selected this")
  await second.press(place)
  expectEqual("the words at the press", await second.look(WORDS), "Anna Berg has selected this")
  await second.release(place)
  await first.press(place)
  await first.moveTo(await onScreen(first, [460, 420]))
  await third.waitUntil("the drag", `${GHOSTS} === 1`)
  // The panel's list selects it too.
  await third.click("#panel .list button")
  expectEqual("the words while it is moved", await third.look(WORDS), "Anna Berg is moving this")
  await third.picture(join(PICTURES, "held.png"))
  await first.release(await onScreen(first, [460, 420]))
  const take = async () => third.key("ArrowRight")
  await third.click('.version .body')
  const entries = await added(room, 1, take)
  expectEqual("it can be changed", entries.map(([word]) => word), ["put"])
  for (const page of [first, second, third]) await page.key("Escape")
  await third.waitUntil("no words", `${WORDS} === ""`)
}

/** The browser shows all pages of the tests, so this one is told that it is hidden. */
async function hidden(first, second) {
  await pointAt(first, [640, 640])
  await second.waitUntil("the pointer", `${POINTERS}.includes("Anna Berg")`)
  const hide = (isHidden) => first.look(`void (() => {
    Object.defineProperty(document, "hidden", { value: ${isHidden}, configurable: true })
    document.dispatchEvent(new Event("visibilitychange"))
  })()`)
  await hide(true)
  await second.waitUntil("no pointer", `!${POINTERS}.includes("Anna Berg")`)
  expect("the person is still here", (await second.look(LIST)).includes("Anna Berg"))
  await hide(false)
  await pointAt(first, [600, 640])
  await second.waitUntil("the pointer again", `${POINTERS}.includes("Anna Berg")`)
}

/** A client that speaks the protocol by itself, and can set any note. */
async function rawClient(address) {
  const socket = new WebSocket((await pageOf(address)).searchParams.get("server"))
  const answers = []
  socket.onmessage = ({ data }) => answers.push(JSON.parse(data))
  await new Promise((resolve, reject) => Object.assign(socket, { onopen: resolve, onerror: reject }))
  const ask = async (text) => {
    const count = answers.length
    socket.send(text)
    await waitUntil("an answer", () => answers.length > count)
    return answers.at(-1)
  }
  const [, , site] = await ask(`["join","people"]`)
  return { site, note: (text) => ask(JSON.stringify(["note", text])), close: () => socket.close() }
}

async function hostile(pages, address) {
  const client = await rawClient(address)
  const guest = `Guest ${client.site}`
  const notes = [
    "{", "{\"n\":", "\u0001".repeat(256), "\u202e\u0000\u001b".repeat(50),
    "9".repeat(256), `{"p":[${"9".repeat(200)},1]}`,
    "{\"n\":\"<img src=x onerror=alert(1)>\"}", `{"n":"${"\u0301".repeat(120)}"}`, "[".repeat(256), "null",
    "{\"n\":{\"n\":1},\"c\":1e99,\"p\":[null,{}],\"s\":[1,1,0,0],\"d\":\"x\"}",
    "{\"d\":[9,9,0,1,1,1,1,0],\"s\":[256,16384,31]}",
    "{\"d\":[1,1,31,-100000,-100000,100000,-100000,0]}", "{\"d\":[1,1,0,0,0,0,0,16384]}", "constructor", "\"\\ud800\"",
  ]
  for (const note of notes) {
    const [word, , all] = await client.note(note)
    expectEqual(`the server's answer to ${note}`, word, "notes")
    expectEqual("the note as it is kept", all.find(([site]) => site === client.site)[1], note)
    const name = note.includes("<img") ? "<img src=x onerror=alert(1)>" : guest
    for (const page of pages) await page.waitUntil(`the person of ${note}`, `${LIST}.includes("${name}")`)
  }
  for (const page of pages) expectEqual("images", await page.look(`document.images.length`), 0)
  await client.note("{\"n\":\"Zoe\",\"p\":[300,600]}")
  for (const page of pages) await page.waitUntil("an honest one", `${POINTERS}.includes("Zoe")`)
  client.close()
  for (const page of pages) await page.waitUntil("its end", `!${LIST}.includes("Zoe") && !${POINTERS}.includes("Zoe")`)
  faults(...pages)
}

async function askedOnce(first) {
  await first.reload()
  await isOpen(first)
  await first.waitUntil("the name", `${LIST}[0] === "Anna Berg (you)"`)
  expectEqual("whether it asks", await first.look(ASKS), false)
  await first.click("#people li button")
  expectEqual("what is in the field", await first.look(`document.activeElement.value`), "Anna Berg")
  await first.key("Escape")
  expectEqual("what has the focus", await first.look(`document.activeElement.closest("#people li") !== null`), true)
}

async function smallScreen(browser, address) {
  const phone = await browser.open(address, 390, 844, true)
  await isOpen(phone)
  await phone.waitUntil("all of them", `${LIST}.length === 4`)
  const initials = `[...document.querySelectorAll("#people .initials")].map((one) => one.textContent)`
  expectEqual("the initials", (await phone.look(initials)).slice(1).sort(), ["AB", "B<", "G4"].sort())
  expect("nothing is wider than the screen", await phone.look("document.documentElement.scrollWidth <= 390"))
  await phone.picture(join(PICTURES, "people-small.png"))
  faults(phone)
  await phone.close()
}

/** Only some initials are seen, but the list has all names. */
async function manyPeople(first, address) {
  const clients = []
  for (let person = 0; person < 14; person++) {
    clients.push(await rawClient(address))
    await clients.at(-1).note(JSON.stringify({ n: `Person ${person + 1}`, c: person % 8, p: [60 * person, 700] }))
  }
  await first.waitUntil("all of them", `${LIST}.length === 17 && ${POINTERS}.length >= 14`)
  const last = await first.look(`[...document.querySelectorAll("#people li:not(.unseen)")].slice(-2).map((one) => {
    const { left, right } = one.getBoundingClientRect()
    return { word: one.innerText.trim().split("\\n")[0], left, right }
  })`)
  expectEqual("the last initials, and how many more", last.map(({ word }) => word), ["P9", "+5"])
  expect("they are side by side", last[1].left > last[0].left + 15 && last[1].right > last[0].right + 10)
  expect("it is in one line", await first.look(`document.querySelector("#people").offsetHeight < 34`))
  await first.picture(join(PICTURES, "many-people.png"))
  for (const client of clients) client.close()
  await first.waitUntil("the others", `${LIST}.length === 3`)
}

async function fades(first, second) {
  await pointAt(second, [700, 620])
  await first.waitUntil("the pointer", `${POINTERS}.includes("Ben <b>")`)
  const start = performance.now()
  const isStill = `[...document.querySelectorAll(".pointer.still")].some((one) => one.textContent === "Ben <b>")`
  expectEqual("at first", await first.look(isStill), false)
  await first.waitUntil("it fades", isStill)
  expect("after ten seconds", performance.now() - start > 9000)
  await pointAt(second, [710, 620])
  await first.waitUntil("it is there again", `!${isStill}`)
}

async function gone([first, second, third]) {
  await pointAt(third, [500, 600])
  await first.waitUntil("the pointer", `${POINTERS}.includes("Guest 4")`)
  await third.close()
  for (const page of [first, second]) {
    await page.waitUntil("nobody", `!${POINTERS}.includes("Guest 4") && !${LIST}.includes("Guest 4")`)
    await page.waitUntil("the words", `document.getElementById("arrivals").textContent.includes("Guest 4")`)
  }
}
