/**
 * A client's copy of a room: the pulled entries of the record, the drawing that is shown, and the pending changes. What
 * is shown is a prefix of the record, and all own changes. With a storage all of it is saved as it changes.
 */

import { asId, asName } from "./arguments.js"
import { Change, HeldChanges, joinSeen, latestName, renameOperation } from "./change.js"
import { Drawing, ownerOf } from "./drawing.js"
import {
  LIMITS, ProtocolFault, Refused, codeOf, entryOf, isSameId, nameOf, operationOf, requestOf,
} from "./forms.js"
import { writeText } from "./json_text.js"
import { Passage, takeAlong } from "./passage.js"
import { Transfer } from "./transfer.js"

/** @typedef {import("./forms.js").Name} Name */
/** @typedef {import("./forms.js").VersionId} VersionId */
/** @typedef {import("./forms.js").Value} Value */
/** @typedef {import("./forms.js").Operation} Operation */
/** @typedef {import("./drawing.js").Version} Version */
/** @typedef {import("./storage.js").SavedState} SavedState */

/**
 * Whom the state tells what has happened. `emit` reports an event to the program. `changed`: the program has made a
 * change. `answered`: fewer changes are pending than before.
 * @typedef {{ emit(event: string, news: object): void, changed(): void, answered(): void }} Report
 */

const OTHER_ROOM = "The room was started again, and your old drawing is not in it. You can save a copy of it."
export const GOES_ON = "This drawing goes on in another room."
const LEFT_BEHIND = "This drawing went on in another room without your last changes. You can save a copy of them."

// So long after a reply the storage may have changes that the record has already. A reload finds them there.
const SAVED_AFTER_MILLISECONDS = 100
// So long after the first entries of a record came, the storage may lack it. A reload before that loads them again.
const LOADED_SAVED_AFTER_MILLISECONDS = 2000

export class RoomState {
  // How many entries the server has at least.
  length = 0
  // Whether all entries are loaded that the room had when the client joined.
  isLoaded = false
  // Whether the client is joining or rejoining. It shows nothing new until its site is certain.
  isEntering = false
  // Whether the room takes nobody new, so that the client only looks at it, now and then, as a site that is free.
  isLooking = false
  isClosed = false
  #report
  #saved
  // Frees the place where the state is saved, for another client of the same person.
  #release = () => {}
  #site = null
  #record = []
  #drawing = new Drawing()
  // How many entries of the record are shown.
  #shownCount = 0
  #creationPlaces = new Map()
  #pending = []
  // Own changes that the server has accepted, but that no pull has returned yet.
  #acceptedUnpulled = []
  // The later names of operations of this client's earlier sites, by the code of the first name.
  #laterNames = new Map()
  // What objects and versions of the room before have become, or null.
  #passage = null
  #held = new HeldChanges()
  #holds = 0
  // The running `transaction`: what marks its changes, and those that it has made. Or null.
  #transaction = null
  #isRestoring = false
  // Will save that changes are in the record, or null.
  #saving = null
  // The index of the first entry that is not saved, and what will save the record once it is loaded. Or null.
  #unsavedFrom = null
  #savingRecord = null

  /**
   * @param {SavedState} saved
   * @param {Report} report
   */
  constructor(saved, report) {
    this.#saved = saved
    this.#report = report
  }

  // ---- reading

  get site() {
    return this.#site
  }

  get record() {
    return this.#record
  }

  get drawing() {
    return this.#drawing
  }

  /** The changes that the server has not answered yet, oldest first. */
  get pending() {
    return this.#pending
  }

  /** Whether the record has ended. */
  get hasEnded() {
    return this.#record.at(-1)?.[0] === "next"
  }

  /** Whether some pulled entries are not shown yet. */
  get hasNews() {
    return this.#shownCount < this.#record.length
  }

  get isHeld() {
    return this.#holds > 0
  }

  /**
   * The room has this many entries. While the client has none of them, an earlier count may be another room's, and
   * goes.
   */
  count(length) {
    this.length = this.#record.length > 0 ? Math.max(this.length, length) : length
  }

  /** How many entries of the record were pulled, and how many the server has at least. */
  get progress() {
    const have = this.#record.length
    return { have, of: Math.max(have, this.length) }
  }

  /**
   * The shown objects in the order of the record. Own objects that the record lacks come last.
   * @returns {Name[]}
   */
  objects() {
    const place = (name) => this.#creationPlaces.get(codeOf(name)) ?? Infinity
    const places = this.#drawing.names().map((name) => [place(name), name])
    return places.sort(([one], [other]) => (one === other ? 0 : one - other)).map(([, name]) => name)
  }

  /**
   * The current versions that contain all changes of an earlier version. There are several if later changes conflict
   * with each other but not with that version. If that version was deleted, one of them is gone. The list is empty if
   * the room was reset, or renewed twice since.
   * @param {Name} object
   * @param {Version} version any version that this room returned
   * @returns {Version[]}
   */
  successors(object, version) {
    if (ownerOf(version).drawing !== this.#drawing) {
      const found = this.#continuations(version).flatMap((one) => this.successors(one.object, one.version))
      return [...new Set(found)]
    }
    if (!this.#drawing.has(object)) return []
    const members = version.members.map((name) => latestName(name, this.#laterNames))
    return this.#drawing.versions(object).filter((later) => members.every((name) => later.has(name)))
  }

  /**
   * The changes of this client that have these names, also those that it made before it was restored.
   * @param {Name[]} names
   * @returns {(Change | null)[]} null where this client shows no such change
   */
  changesNamed(names) {
    const found = new Map()
    for (const change of [...this.#acceptedUnpulled, ...this.#pending]) found.set(codeOf(change.name), change)
    const wanted = new Set(names.map((name) => codeOf(asName(name))))
    const isWanted = ([, name]) => name[0] === this.#site && wanted.has(codeOf(name))
    for (const operation of this.#record.slice(0, this.#shownCount).filter(isWanted).map(operationOf)) {
      const code = codeOf(operation.name)
      if (!found.has(code)) found.set(code, this.#recordedChange(operation))
    }
    return names.map((name) => found.get(codeOf(name)) ?? null)
  }

  /** A change of this client that is in the record. When it was made is not known. */
  #recordedChange(operation) {
    const change = new Change(operation, this.#drawing.kind(operation.object), 0)
    change.become(operation, this.#drawing.versionAfter(operation))
    change.isSent = true
    change.resolve()
    this.#held.add(change)
    return change
  }

  /** What a version of the room before has become. */
  #continuations(version) {
    return this.#passage?.continuations(version) ?? []
  }

  // ---- changing

  /**
   * Creates an object.
   * @param {string} kind
   * @param {[string, Value][]} attributes
   * @returns {Change}
   * @throws {Refused} as `Room.create`
   */
  create(kind, attributes) {
    if (this.#drawing.size >= LIMITS.objects) throw new Refused("too-many-objects")
    return this.#change(this.#next("new", { kind, attributes }), null)
  }

  /**
   * Makes a put or a drop if the server would accept it. The checks have the server's order, so the word is the same.
   * @param {"put" | "drop"} word
   * @param {Name} object
   * @param {VersionId | Version} version
   * @param {{ attributes?: [string, Value][] }} rest
   * @param {[number, number][] | null} [seen] what the author saw, if that is not all that is shown
   * @returns {Change}
   * @throws {Refused | TypeError} as `Room.put`
   */
  changeVersion(word, object, version, rest, seen = null) {
    const base = this.#baseOf(object, version, seen)
    const operation = this.#next(word, { object: base.object, version: base.version, ...rest })
    if (base.seen !== null) operation.seen = this.#seenBy(base.seen)
    this.#drawing.check(operation)
    const { changes, keys } = this.#drawing.used(operation.object)
    if (changes >= LIMITS.changes) throw new Refused("object-full")
    const newKeys = (operation.attributes ?? []).map(([key]) => key)
    if (newKeys.length > 0 && new Set([...keys, ...newKeys]).size > LIMITS.keys) throw new Refused("too-many-keys")
    return this.#change(operation, base.shown)
  }

  /**
   * Makes the changes of a call together, as `Room.transaction` says.
   * @template Result
   * @param {() => Result} call
   * @returns {Result}
   */
  transaction(call) {
    if (this.#transaction !== null) return call()
    const transaction = { mark: {}, changes: [] }
    this.#transaction = transaction
    try {
      return call()
    } finally {
      this.#transaction = null
      this.#finishTransaction(transaction.changes)
    }
  }

  /**
   * What a change builds on: the object, and the identifier of the version. A version of the room before stands for the
   * one that it became. Then an author who had seen that version has seen what the client took along.
   */
  #baseOf(object, version, seen) {
    const owner = ownerOf(version)
    if (owner === undefined || owner.drawing === this.#drawing) {
      const id = asId(version)
      return { object: asName(object), version: id, seen, shown: owner ? version : this.#shown(object, id) }
    }
    const found = this.#passage?.find(version, seen !== null) ?? null
    if (found === null) throw new Refused("no-such-version")
    const { object: name, version: shown } = found
    return { object: name, version: shown.id, seen: seen && this.#passage.seen, shown }
  }

  /** What a change counts whose author saw this: all own changes too, and what the last of them counts. */
  #seenBy(seen) {
    const isOwn = ([, name]) => name[0] === this.#site
    const last = this.#unrecordedEntries().findLast(isOwn) ?? this.#record.findLast(isOwn)
    const own = [[this.#site, this.#drawing.count(this.#site)]]
    return joinSeen(this.#drawing, [seen, last?.[2] ?? [], own])
  }

  /** The next operation of this client. */
  #next(word, rest) {
    if (this.isClosed) throw new Refused("closed")
    if (this.#site === null) throw new Refused(this.isLooking ? "read-only" : "not-joined")
    if (this.#record.length + this.#pending.length >= LIMITS.entries) throw new Refused("record-full")
    const name = [this.#site, this.#drawing.count(this.#site) + 1]
    return { word, name, seen: this.#drawing.seen(), object: name, ...rest }
  }

  /** The version that is shown under this identifier, or null. */
  #shown(object, id) {
    const versions = this.#drawing.has(object) ? this.#drawing.versions(object) : []
    return versions.find((version) => isSameId(version.id, id)) ?? null
  }

  #change(operation, base) {
    requestOf(operation)
    const change = new Change(operation, operation.kind ?? this.#drawing.kind(operation.object))
    change.base = base
    change.transaction = this.#transaction?.mark ?? null
    this.#held.add(change)
    this.#draw(change, operation)
    this.#pending.push(change)
    if (this.#transaction === null) this.#finishTransaction([change])
    else this.#transaction.changes.push(change)
    return change
  }

  /** Saves, sends and reports changes that were made together. */
  #finishTransaction(changes) {
    if (changes.length === 0) return
    this.#saveChanges()
    this.#report.changed()
    this.#emitChange(changes.map(({ object }) => codeOf(object)))
    this.#report.emit("transaction", { changes })
  }

  /** Shows a change of this client under this operation. */
  #draw(change, operation) {
    this.#drawing.add(operation)
    const versions = this.#drawing.versions(operation.object)
    const isAfter = (version) => operation.word === "new" || version.has(operation.name)
    change.become(operation, versions.find(isAfter))
  }

  /** Shows nothing new until the hold is released. */
  hold() {
    this.#holds += 1
  }

  releaseHold() {
    this.#holds -= 1
    this.show()
  }

  // ---- what the server has

  /**
   * Appends the next entries of the record, and shows them unless there is a hold.
   * @param {any[][]} entries
   */
  append(entries) {
    const from = this.#record.length
    for (const entry of entries) {
      const operation = operationOf(entry)
      this.#record.push(entry)
      if (operation !== null) this.#settleIfOwn(entryOf(operation))
    }
    this.#unsavedFrom ??= from
    if (this.isLoaded && this.#savingRecord === null) this.#saveRecord()
    else this.#savingRecord ??= setTimeout(() => this.#saveRecord(), LOADED_SAVED_AFTER_MILLISECONDS)
    this.show()
  }

  /** Handles an entry of the record. If it is this client's next change, that change is settled. */
  #settleIfOwn(entry) {
    const isIt = (change) => change !== undefined && writeText(entryOf(change.operation)) === writeText(entry)
    if (isIt(this.#pending[0])) this.#settleFirst()
    else if (isIt(this.#acceptedUnpulled[0])) {
      this.#acceptedUnpulled.shift()
      this.#saveChangesSoon()
    }
  }

  /**
   * The server has accepted the oldest pending change, which a later page brings.
   * @param {Change} change
   */
  acceptUnpulled(change) {
    this.#acceptedUnpulled.push(change)
    this.#settleFirst()
  }

  /** Settles the oldest pending change: the server has accepted it. */
  #settleFirst() {
    const first = this.#pending.shift()
    this.#saveChangesSoon()
    first.resolve()
    this.#report.answered()
  }

  /** Shows all pulled entries, unless there is a hold. */
  show() {
    if (!this.isEntering && this.#holds === 0) this.showAll()
  }

  /** Shows all pulled entries. */
  showAll() {
    const changed = []
    for (; this.#shownCount < this.#record.length; this.#shownCount++) {
      const operation = operationOf(this.#record[this.#shownCount])
      if (operation === null) continue
      if (operation.word === "new") this.#creationPlaces.set(codeOf(operation.name), this.#shownCount)
      const [site, number] = operation.name
      const isDrawn = number <= this.#drawing.count(site)
      if (!isDrawn) this.#drawing.add(operation)
      if (!isDrawn || operation.word === "new") changed.push(codeOf(operation.object))
    }
    if (changed.length > 0) this.#emitChange(changed)
  }

  /**
   * Continues as a new site. Its changes that the record lacks become changes of the new site.
   * @param {number} site
   * @param {string} name of the room
   */
  becomeSite(site, name) {
    const [first] = this.#pending
    const old = this.#site
    this.#site = site
    this.#saved.saveSite(site, name)
    if (first !== undefined) this.#rename(old, first.name[1], this.#pending)
  }

  /**
   * Removes a refused change, and all later pending changes of the same object.
   * @param {Change} refused
   * @param {Refused} refusal
   */
  withdraw(refused, refusal) {
    const code = codeOf(refused.object)
    const behind = this.#pending.filter((change) => change !== refused)
    const withdrawn = behind.filter((change) => codeOf(change.object) === code)
    this.#pending = behind.filter((change) => codeOf(change.object) !== code)
    this.#rename(this.#site, refused.name[1], this.#pending, [code])
    this.reject([refused], refusal)
    this.reject(withdrawn, new Refused("withdrawn"))
    this.#report.answered()
  }

  /**
   * Removes all operations of a site from this number on, then draws these changes again as operations of the current
   * site. No other client has seen any of them.
   */
  #rename(site, first, changes, alsoChanged = []) {
    const names = new Map()
    const changed = changes.map(({ object }) => codeOf(object)).concat(alsoChanged)
    this.#drawing.remove(site, first)
    for (const change of changes) {
      const old = change.operation
      const name = [this.#site, this.#drawing.count(this.#site) + 1]
      names.set(codeOf(old.name), name)
      if (site !== this.#site) this.#laterNames.set(codeOf(old.name), name)
      change.isSent = false
      this.#draw(change, renameOperation(old, names, site, first - 1))
      changed.push(codeOf(change.object))
    }
    this.#saveChanges()
    this.#emitChange(changed, [...names].map(([code, name]) => [nameOf(code), name]))
  }

  // ---- another room

  /** Discards the old room's state, and reports it with `reset`. */
  discardRoom() {
    const [pending, text] = [this.#pending, this.#text()]
    const gone = this.#reset()
    this.#emitChange(gone)
    this.#report.emit("reset", { words: OTHER_ROOM, text })
    this.reject(pending, new Refused("another-room"))
    this.#report.answered()
  }

  /**
   * Discards the old room's state, as it can no longer be read. The drawing goes on in another room.
   * @param {string} oldRoom
   * @param {string} newRoom
   */
  leaveBehind(oldRoom, newRoom) {
    const [pending, text] = [this.#pending, this.#text()]
    this.#emitChange(this.#reset())
    const isLost = pending.length > 0
    const words = isLost ? LEFT_BEHIND : GOES_ON
    this.#report.emit("renewed", { oldRoom, newRoom, words, copies: [], text: isLost ? text : null })
    this.reject(pending, new Refused("renewed"))
    this.#report.answered()
  }

  /**
   * Makes the room's successor the client's room.
   * @param {{ name: string, site: number, record: any[][] }} next the successor
   * @param {string} oldRoom
   * @param {Drawing} old what the old record draws
   * @param {Drawing} drawing what the first entries of the successor draw, which is the same
   */
  goOnIn({ name, site, record }, oldRoom, old, drawing) {
    this.isLooking = false
    const [, count] = this.#record.at(-1)
    const [all, pending] = [this.#drawing, this.#pending]
    const transfer = new Transfer(old, all, pending.map((change) => change.name), drawing, site)
    this.#passage = new Passage(transfer, all, this.#laterNames, drawing.seen())
    this.#takeRecord(site, record, drawing, count)
    this.#pending = takeAlong(pending, transfer, drawing)
    this.#moveHeld()
    this.#saveAll(name)
    this.#emitChange([...all.names(), ...drawing.names()].map(codeOf), transfer.renamed)
    this.#report.emit("renewed", { oldRoom, newRoom: name, words: GOES_ON, copies: transfer.copies, text: null })
    this.#report.answered()
  }

  /** Takes another record, of which the drawing shows the first entries. */
  #takeRecord(site, record, drawing, count) {
    this.#site = site
    this.#record = record
    this.#drawing = drawing
    this.#shownCount = count
    this.length = record.length
    this.#acceptedUnpulled = []
    this.#laterNames = new Map()
    this.#creationPlaces.clear()
    record.slice(0, count).forEach(([word, object], place) => {
      if (word === "new") this.#creationPlaces.set(codeOf(object), place)
    })
  }

  /** All changes but those that are sent again become changes of the objects and versions that correspond. */
  #moveHeld() {
    this.#pending.forEach((change) => this.#held.add(change))
    const isPending = new Set(this.#pending)
    for (const change of this.#held.all()) {
      const [found] = isPending.has(change) ? [] : this.#continuations(change.version)
      if (found !== undefined) change.moveTo(found.object, found.version)
    }
  }

  /** The entries of the record without its end, then the changes that it lacks, one entry a line. */
  #text() {
    const entries = [...this.#record, ...this.#unrecordedEntries()].filter(([word]) => word !== "next")
    return entries.map((entry) => `${writeText(entry)}\n`).join("")
  }

  /** Discards all state of the room, saved state included. Returns the codes of the objects that were shown. */
  #reset() {
    const gone = this.#drawing.names().map(codeOf)
    this.#stopSaving()
    this.#passage = null
    this.#held.clear()
    this.#site = null
    this.#record = []
    this.#pending = []
    this.#acceptedUnpulled = []
    this.#shownCount = 0
    this.length = 0
    this.isLoaded = false
    this.#creationPlaces.clear()
    this.#laterNames.clear()
    this.#drawing = new Drawing()
    this.#saved.clear()
    return gone
  }

  // ---- what is saved

  /**
   * The state is saved here from now on. Nothing was saved before.
   * @param {SavedState} saved
   * @param {() => void} release is called when the room is closed
   */
  saveIn(saved, release) {
    this.#saved = saved
    this.#release = release
  }

  /** Removes what is saved. */
  clearSaved() {
    this.#stopSaving()
    this.#saved.clear()
  }

  /** What was to be saved later is no longer there. */
  #stopSaving() {
    for (const timer of [this.#saving, this.#savingRecord]) clearTimeout(timer)
    this.#saving = this.#savingRecord = this.#unsavedFrom = null
  }

  /**
   * Restores the saved state of an earlier client, if there is one.
   * @returns {string | null} the name of its room; null if there is none
   */
  restore() {
    this.#isRestoring = true
    try {
      return this.#restore()
    } catch {
      // The saved state is damaged: start without it.
      this.#reset()
      return null
    } finally {
      this.#isRestoring = false
    }
  }

  #restore() {
    const saved = this.#saved.read()
    if (saved === null) {
      this.#saved.clear()
      return null
    }
    this.#site = saved.site
    this.#record = saved.record
    this.show()
    for (const operation of saved.changes.map(operationOf)) {
      const [site, number] = operation.name
      if (site !== this.#site) throw new ProtocolFault("a saved change belongs to another site")
      // The record got the change after the changes were saved.
      if (number <= this.#drawing.count(site)) continue
      const change = new Change(operation, operation.kind ?? this.#drawing.kind(operation.object))
      this.#held.add(change)
      this.#draw(change, operation)
      change.isSent = true
      this.#pending.push(change)
    }
    return saved.room
  }

  /** Saves the state of another room in place of the old one's. */
  #saveAll(name) {
    this.clearSaved()
    this.#saved.saveSite(this.#site, name)
    this.#saved.saveRecord(this.#record, 0)
    this.#saveChanges()
  }

  /** Saves the entries of the record that are not saved yet. */
  #saveRecord() {
    clearTimeout(this.#savingRecord)
    this.#savingRecord = null
    if (this.#unsavedFrom !== null) this.#saved.saveRecord(this.#record, this.#unsavedFrom)
    this.#unsavedFrom = null
  }

  /** Changes build on the record, so that is saved first. */
  #saveChanges() {
    this.#saveRecord()
    clearTimeout(this.#saving)
    this.#saving = null
    this.#saved.saveChanges(this.#unrecordedEntries())
  }

  /** Saves once after many replies: to save all that is pending after each of them would take long. */
  #saveChangesSoon() {
    this.#saving ??= setTimeout(() => this.#saveChanges(), SAVED_AFTER_MILLISECONDS)
  }

  /** The entries of this client's changes that the pulled part of the record lacks. */
  #unrecordedEntries() {
    return [...this.#acceptedUnpulled, ...this.#pending].map(({ operation }) => entryOf(operation))
  }

  // ---- news

  #emitChange(codes, renamed = []) {
    if (!this.#isRestoring) this.#report.emit("change", { objects: [...new Set(codes)].map(nameOf), renamed })
  }

  emitProgress() {
    this.#report.emit("progress", { ...this.progress, isLoaded: this.isLoaded })
  }

  /** Reports that these changes have failed. */
  reject(changes, refusal) {
    for (const change of changes) {
      change.reject(refusal)
      this.#report.emit("refusal", { refusal, change })
    }
  }

  /**
   * Ends all changing.
   * @returns {Change[]} the changes that are pending still
   */
  close() {
    if (this.#saving !== null) this.#saveChanges()
    this.#saveRecord()
    this.isClosed = true
    this.#release()
    return this.#pending.splice(0)
  }
}
