/** The way from a room that has ended into its successor: what becomes of versions and of pending changes. */

import { Change, latestName } from "./change.js"
import { ownerOf } from "./drawing.js"
import { codeOf } from "./forms.js"

/** @typedef {import("./forms.js").Name} Name */
/** @typedef {import("./drawing.js").Drawing} Drawing */
/** @typedef {import("./drawing.js").Version} Version */
/** @typedef {import("./transfer.js").Transfer} Transfer */

/** What became of the versions that the old room showed. */
export class Passage {
  #transfer
  #drawing
  #laterNames

  /**
   * @param {Transfer} transfer
   * @param {Drawing} drawing of the old room, with the pending changes
   * @param {Map<number, Name>} laterNames of operations of the old room, as for `latestName`
   * @param {[number, number][]} seen the state vector of what the client took along
   */
  constructor(transfer, drawing, laterNames, seen) {
    this.#transfer = transfer
    this.#drawing = drawing
    this.#laterNames = laterNames
    this.seen = seen
  }

  /**
   * The versions that contain all changes of a version of the old room, with their object.
   * @param {Version} version
   * @returns {{ object: Name, version: Version }[]} empty if it is of another room
   */
  continuations(version) {
    const { drawing, name } = ownerOf(version)
    if (drawing !== this.#drawing) return []
    return this.#transfer.continuations(this.#latest(name), version.members.map((member) => this.#latest(member)))
  }

  /**
   * What stands for a version of the old room as a base.
   * @param {Version} version
   * @param {boolean} isLast whether nobody may have changed the version after it was read
   * @returns {{ object: Name, version: Version } | null} null if nothing does
   */
  find(version, isLast) {
    const { drawing, name } = ownerOf(version)
    if (drawing !== this.#drawing) return null
    const found = this.#transfer.find(this.#latest(name), version.id)
    const isChanged = found !== undefined && found.old.members.length !== version.members.length
    return found === undefined || (isLast && isChanged) ? null : found
  }

  #latest(name) {
    return latestName(name, this.#laterNames)
  }
}

/**
 * The pending changes after a transfer. Of each group of operations, the last is that of the last change whose effect
 * the group has. The other changes settle with the groups that have their effect.
 * @param {Change[]} pending
 * @param {Transfer} transfer
 * @param {Drawing} drawing of the successor, with these operations
 * @returns {Change[]}
 */
export function takeAlong(pending, { groups }, drawing) {
  const changes = new Map(pending.map((change) => [codeOf(change.name), change]))
  const settledBy = new Map(pending.map((change) => [change, []]))
  const taken = new Set()
  for (const { operations, pending: codes } of groups) {
    const own = codes.map((code) => changes.get(code))
    const last = own.findLast((change) => !taken.has(change))
    const carriers = carry(operations, own[0], last, drawing)
    carriers.forEach((change) => taken.add(change))
    own.forEach((change) => settledBy.get(change).push(carriers.at(-1)))
  }
  for (const [change, others] of settledBy) {
    if (!taken.has(change)) change.resolve(Promise.all(others.map(({ done }) => done)).then(() => {}))
  }
  return [...taken]
}

/** The changes of these operations: new ones, but for the last operation this one, if it is given. */
function carry(operations, { kind, made }, last, drawing) {
  const anew = operations.map((operation) => new Change(operation, kind, made))
  const changes = last === undefined ? anew : [...anew.slice(0, -1), last]
  changes.forEach((change, place) => {
    const operation = operations[place]
    const versions = drawing.versions(operation.object)
    change.isSent = false
    change.become(operation, versions.find((version) => operation.word === "new" || version.has(operation.name)))
  })
  return changes
}
