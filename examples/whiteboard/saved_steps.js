/**
 * The steps for undo, which this tab keeps in `sessionStorage` over a reload. Of an action it keeps the name of the
 * operation, and what reverses it. If the room does not have an operation as it was, its step is forgotten, with all
 * that were to be reversed after it.
 */

import { readText, writeText } from "../../clients/js/grace.js"
import { withoutMakers } from "./maker_keys.js"

const KEY = "whiteboard steps "
const MOST_STEPS = 200
const WORDS = { create: "new", put: "put", drop: "drop" }
const NOTHING = { done: [], undone: [], restored: [] }

export class SavedSteps {
  #isTaken = false

  /** @param {import("../../clients/js/grace.js").Room} room @param {string} roomName the first room's name */
  constructor(room, roomName) {
    Object.assign(this, { room, key: KEY + roomName })
  }

  /**
   * Saves steps, each a list of actions, and by deleted object the creation that brought it back.
   * @param {{ done: any[][], undone: any[][], restored: Iterable<[string, any]> }} steps
   */
  save({ done, undone, restored }) {
    // The page was left before it was loaded: what was saved still counts, unless the user has done more.
    if (!this.#isTaken && done.length === 0) return
    const steps = [done, undone].map((all) => all.slice(-MOST_STEPS).map((step) => step.map(listOf)))
    const back = [...restored].map(([key, act]) => [key, listOf(act)])
    try {
      sessionStorage.setItem(this.key, writeText([this.room.name, this.room.site, ...steps, back]))
    } catch {
      this.forget()
    }
  }

  /** Forgets what is saved. */
  forget() {
    try {
      sessionStorage.removeItem(this.key)
    } catch {
      // The browser stores nothing.
    }
  }

  /** What was saved before a reload, once. */
  take() {
    if (this.#isTaken) return NOTHING
    this.#isTaken = true
    try {
      return this.#read(readText(sessionStorage.getItem(this.key)))
    } catch {
      return NOTHING
    }
  }

  #read([name, site, done, undone, back]) {
    if (name !== this.room.name || site !== this.room.site) return NOTHING
    const lists = [...done.flat(), ...undone.flat(), ...back.map(([, list]) => list)]
    const changes = this.room.changesNamed(lists.map(([, changed]) => changed))
    const acts = new Map(lists.map((list, place) => [list, actOf(list, changes[place])]))
    const found = (steps) => lastWhole(steps.map((step) => step.map((list) => acts.get(list))))
    const restored = back.map(([key, list]) => [key, acts.get(list)]).filter(([, act]) => act !== null)
    return { done: found(done), undone: found(undone), restored }
  }
}

/** The steps behind the last one that lacks an action. */
const lastWhole = (steps) => steps.slice(steps.findLastIndex((step) => step.includes(null)) + 1)

/** An action as a list of texts, integers and lists. */
function listOf({ word, change, before = {}, after, attributes = after }) {
  return [word, change.name, [...attributes], Object.entries(before)]
}

/** The action of a list, or null if the change is none of this action. */
function actOf([word, , pairs, before], change) {
  if (change === null || change.operation.word !== WORDS[word]) return null
  const values = new Map(pairs)
  if (word === "drop") return { word, change, kind: change.kind, attributes: values }
  const isOther = ([key, value]) => values.get(key) !== value
  if (withoutMakers(change.operation.attributes).some(isOther)) return null
  return { word, change, after: values, ...(word === "put" && { before: Object.fromEntries(before) }) }
}
