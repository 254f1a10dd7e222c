/**
 * Who made a version, and when this page first saw it. Where the user allows it, their changes put the user's name to a
 * key of their own. No other site puts this key, so changes that are compatible without it stay compatible.
 */

import { LIMITS } from "../../clients/js/grace.js"
import { isMakerKey, makerKeyOf } from "./maker_keys.js"
import { fittingName } from "./notes.js"
import { entriesOfNew } from "./space.js"
import { peopleWords, timeWords } from "./words.js"

// An object has the names of at most so many people, and so many keys are left to others.
const MOST_NAMES = 16
const LEFT_KEYS = 8

export class Makers {
  /** @param {import("./whiteboard.js").Page} page @param {import("./entries.js").Entries} entries */
  constructor(page, entries) {
    Object.assign(this, { page, entries, room: page.room })
  }

  /** What a new object of so many attributes gets: the user's name, or nothing. It never takes one more entry. */
  ofNew(attributes) {
    const { keptName } = this.page.people
    const isFree = entriesOfNew(attributes + 1) === entriesOfNew(attributes)
    return keptName !== "" && isFree ? [[this.#ownKey, keptName]] : []
  }

  /** What a put of these keys adds: the user's name, where the version does not have it. */
  ofPut(name, version, keys) {
    const { keptName } = this.page.people
    const key = this.#ownKey
    if ((version.attributes.get(key) ?? "") === keptName || keys.length >= LIMITS.attributes) return {}
    return this.#hasSpace(name, [...keys, key]) ? { [key]: keptName } : {}
  }

  /** Who made one of several versions, and when: `Anna, 10:32`. Those who made what all of them have do not count. */
  wordsOf(version, versions) {
    const isCommon = (change) => versions.every((one) => one.has(change))
    const own = version.id.filter((change) => !isCommon(change))
    const names = new Set(own.flatMap((change) => this.#namesOf(change, version)))
    const [latest] = own.map((change) => this.entries.seenAt(change)).sort((one, other) => other.time - one.time)
    return `${peopleWords([...names])}, ${timeWords(latest)}`
  }

  get #ownKey() {
    return makerKeyOf(this.room.name, this.room.site)
  }

  /** A change at the beginning of a renewed room has no author, but the names of those who made what it draws. */
  #namesOf(change, { attributes }) {
    if (this.page.changes.isOwn(change)) return ["you"]
    const carried = (this.entries.find(change)?.attributes ?? []).filter(([key]) => isMakerKey(key))
    const texts = [attributes.get(makerKeyOf(this.room.name, change[0])), ...carried.map(([, text]) => text)]
    const names = texts.map((text) => (typeof text === "string" ? fittingName(text) : "")).filter((name) => name !== "")
    return names.length > 0 ? names : ["someone"]
  }

  #hasSpace(name, keys) {
    const members = this.room.versions(name).flatMap((version) => version.members)
    const used = new Set(keys)
    for (const member of members) for (const [key] of this.entries.find(member)?.attributes ?? []) used.add(key)
    const names = [...used].filter(isMakerKey).length
    return names <= MOST_NAMES && used.size <= LIMITS.keys - LEFT_KEYS
  }
}
