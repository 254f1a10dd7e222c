/** Random histories of up to five sites, of which each knows a part of the history. */

import assert from "node:assert/strict"
import { Drawing, LIMITS, entryOf, operationOf, writeText } from "../grace.js"
import { shownVersion } from "./checks.js"

const KEYS = ["x", "y", "fill"]
const VALUES = [1, 2, "1"]

/** One room, with the knowledge of each of its sites. */
class History {
  constructor(room, draw) {
    this.room = room
    this.draw = draw
    this.whole = new Drawing()
    this.operations = []
    this.lines = []
    // The expected reply to each line.
    this.replies = []
    this.sites = Array.from({ length: 1 + draw(5) }, () => new Drawing())
    this.knowsPrefixes = draw(2) === 0
    this.keys = KEYS.slice(0, 1 + draw(3))
    this.sites.forEach((_, site) => this.say(site, ["join", `r${room}`], ["joined", site, site + 1]))
    this.at = this.sites.length
  }

  say(site, request, reply) {
    this.lines.push(`${this.room * 5 + site} ${writeText(request)}`)
    this.replies.push(`${this.room * 5 + site} ${writeText(reply)}`)
  }

  /** A site learns some of the operations that it lacks, in the record's order or in another causal one. */
  learn(site) {
    const known = this.sites[site]
    for (const operation of this.operations) {
      const [author, number] = operation.name
      if (number <= known.count(author)) continue
      if (this.draw(4) > 0 && isReady(known, operation)) known.add(operation)
      else if (this.knowsPrefixes) return
    }
  }

  /** Returns the next operation of a site, by its knowledge. */
  next(site) {
    const known = this.sites[site]
    const name = [site + 1, known.count(site + 1) + 1]
    const objects = known.names()
    if (objects.length === 0 || (objects.length < 3 && this.draw(12) === 0)) {
      return operationOf(["new", name, known.seen(), "rect", this.draw(2) === 0 ? [] : [["x", this.pick(VALUES)]]])
    }
    const object = this.pick(objects)
    const alive = known.versions(object).filter(({ isGone }) => !isGone)
    if (alive.length === 0) return operationOf(["new", name, known.seen(), "rect", []])
    const { id } = this.pick(alive)
    if (this.draw(8) === 0) return operationOf(["drop", name, known.seen(), object, id])
    return operationOf(["put", name, known.seen(), object, id, this.pairs()])
  }

  /** Returns values of some of the keys, each once. */
  pairs() {
    const keys = this.keys.filter(() => this.draw(2) === 0)
    return (keys.length > 0 ? keys : [this.pick(this.keys)]).map((key) => [key, this.pick(VALUES)])
  }

  pick(list) {
    return list[this.draw(list.length)]
  }

  /** Adds one operation, and then reads of all objects. */
  step() {
    const site = this.draw(this.sites.length)
    this.learn(site)
    const operation = this.next(site)
    this.sites[site].add(operation)
    this.whole.add(operation)
    this.operations.push(operation)
    const [word, [, number], ...rest] = entryOf(operation)
    const ids = word !== "new" && this.whole.versions(operation.object).map(({ id }) => id)
    const reply = word === "new" ? ["made", this.at, operation.name] : ["taken", this.at, ids]
    this.say(site, [word, number, ...rest], reply)
    this.at += 1
    for (const object of this.whole.names()) {
      const versions = this.whole.versions(object).map(shownVersion)
      this.say(this.draw(this.sites.length), ["show", object], ["versions", this.at, object, "rect", versions])
    }
  }

  /** Returns whether another step might reach the limit of versions, which a client cannot foresee. */
  isNearLimit() {
    return this.whole.names().some((object) => this.whole.versions(object).length > LIMITS.versions / 2)
  }

  /** The operations in another causal order must produce the same versions. */
  checkOtherOrder() {
    const other = new Drawing()
    const rest = [...this.operations]
    while (rest.length > 0) {
      const operation = this.pick(rest.filter((one) => isReady(other, one)))
      other.add(operation)
      rest.splice(rest.indexOf(operation), 1)
    }
    for (const object of this.whole.names()) {
      assert.deepEqual(shown(other, object), shown(this.whole, object), `room ${this.room}, in another order`)
    }
  }
}

/** Returns whether the operation is the next of its site, and the drawing has all operations of its state vector. */
const isReady = (drawing, { name: [author, number], seen }) =>
  number === drawing.count(author) + 1 && seen.every(([site, count]) => count <= drawing.count(site))

const shown = (drawing, object) => drawing.versions(object).map((version) =>
  [...shownVersion(version), version.members.map(writeText).sort()])

/** Returns a random history. Its record is the joins of its sites, then its operations. */
export function historyOf(room, draw) {
  const history = new History(room, draw)
  const steps = 4 + draw(24)
  for (let step = 0; step < steps && !history.isNearLimit(); step++) history.step()
  history.checkOtherOrder()
  return history
}
