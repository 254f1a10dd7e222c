/** A room as programs use it: its objects and versions, the changes of this client, events and notes. */

import { asAttributes, asKind, asNote, asPairs, asRoomName, asSeen } from "./arguments.js"
import { Events } from "./events.js"
import { NO_WEB_SOCKET, addressOf, storageOf, withDefaults } from "./options.js"
import { RoomState } from "./room_state.js"
import { browserOf, takeSeat } from "./seats.js"
import { Session } from "./session.js"
import { SavedState } from "./storage.js"

/** @typedef {import("./change.js").Change} Change */
/** @typedef {import("./forms.js").Name} Name */
/** @typedef {import("./forms.js").VersionId} VersionId */
/** @typedef {import("./forms.js").Value} Value */
/** @typedef {import("./drawing.js").Version} Version */
/** @typedef {import("./options.js").Options} Options */
/** @typedef {import("./connection_state.js").State} State */

/**
 * A client in a room. It shows a prefix of the record, and its own changes as soon as they are made.
 *
 * Events, for `on`:
 * - `change` with `{ objects, renamed }`: these objects were created, changed or deleted. `renamed` lists the objects,
 *   and the operations of this client, that have a new name, each as `[old, new]`. An old name may be the new one of
 *   another object.
 * - `state` with `{ state, words, milliseconds }`: the connection state changed. While the state is `saving`, the event
 *   repeats about once a second. `milliseconds` is then how long the oldest change has been pending; otherwise 0.
 * - `progress` with `{ have, of, isLoaded }`: entries of the room that are loaded. The last event has `isLoaded` true.
 * - `refusal` with `{ refusal, change }`: a change failed, and its effect was removed.
 * - `reset` with `{ words, text }`: the server now has a different room of this name, so the old objects are gone.
 *   `text` has the entries of the old record, then the pending changes, one entry a line.
 * - `renewed` with `{ oldRoom, newRoom, words, copies, text }`: the room `oldRoom` has ended, and the client is in
 *   `newRoom`, which draws the same. The `change` before it has the new names of all objects. `copies` lists versions
 *   with pending changes that could not go on in their object: each as `[object, copy]`, where `copy` is an object of
 *   its own. If the pending changes could not be taken along, `text` has the old record and them, as for `reset`;
 *   otherwise it is null.
 * - `transaction` with `{ changes }`: the program has made these changes, in one transaction. Each change outside of
 *   `transaction` is one of its own.
 * - `notes` with `{ notes }`: some note of the room has changed. `notes` is what `room.notes` is now.
 */
export class Room {
  #events = new Events("change", "state", "progress", "refusal", "reset", "renewed", "transaction", "notes")
  #state
  #session

  /**
   * Starts to connect to a room. Set listeners before the next turn of the event loop to get all events.
   * @param {string} address of the server, such as `ws://localhost:7000/`
   * @param {string} name of the room: 1 to 64 characters of a-z, 0-9 and `-`
   * @param {Options} [options]
   * @throws {TypeError} the name is invalid, there is neither `options.connect` nor a global `WebSocket`, or with
   *   `options.roomInPath` the address is no URL
   */
  constructor(address, name, options = {}) {
    asRoomName(name)
    if (options.connect === undefined && globalThis.WebSocket === undefined) throw new TypeError(NO_WEB_SOCKET)
    const all = withDefaults(options)
    const emit = (event, news) => this.#events.emit(event, news)
    const place = { address: addressOf(address, name, all), name }
    this.#state = new RoomState(new SavedState(storageOf(all.storage), address, name), {
      emit, changed: () => this.#session.changed(), answered: () => this.#session.answered(),
    })
    this.#session = new Session(place, all, this.#state, emit)
    const browser = all.storage === "person" ? browserOf() : null
    if (browser === null) this.#restore()
    // In a later turn, so that the caller can set listeners first.
    Promise.resolve().then(() => this.#start(browser, address, name))
  }

  async #start(browser, address, name) {
    if (browser !== null) await this.#takeSeat(browser, address, name)
    const objects = this.#state.drawing.names()
    if (objects.length > 0) this.#events.emit("change", { objects, renamed: [] })
    this.#session.run()
  }

  /** Restores the state of a seat of this browser that no other tab has. */
  async #takeSeat(browser, address, name) {
    try {
      const { storage, number, release } = await takeSeat(browser, address, name)
      if (this.#session.isClosing) return release()
      this.#state.saveIn(new SavedState(storage, address, name, number), release)
    } catch {
      // The browser denies the page its locks: the tab has what it saved for itself.
    }
    this.#restore()
  }

  #restore() {
    const name = this.#state.restore()
    if (name !== null) this.#session.roomName = name
  }

  // ---- reading

  /**
   * The connection state.
   * @type {State}
   */
  get state() {
    return this.#session.connectionState.state
  }

  /**
   * The connection state as a sentence for people.
   * @type {string}
   */
  get words() {
    return this.#session.connectionState.words
  }

  /**
   * The error that closed the room, such as `Refused` or `Denied`; null while it is not closed, and after `close`.
   * @type {Error | null}
   */
  get fault() {
    return this.#session.fault
  }

  /**
   * The name of the room. When the room is renewed, it becomes that of the new one.
   * @type {string}
   */
  get name() {
    return this.#session.roomName
  }

  /**
   * Whether the room has ended. The client then goes on in the next one, as soon as there is no hold.
   * @type {boolean}
   */
  get hasEnded() {
    return this.#state.hasEnded
  }

  /**
   * The number of this client's site, from 1 to 256; null before the client has joined. It changes only if the client
   * cannot rejoin as its old site, or the room is renewed.
   * @type {number | null}
   */
  get site() {
    return this.#state.site
  }

  /**
   * Whether the room takes nobody new, and the client may only look at it. See the option `lookIfFull`.
   * @type {boolean}
   */
  get isReadOnly() {
    return this.#state.isLooking
  }

  /**
   * The entries that were pulled so far. A hold may keep the last ones from being shown.
   * @type {readonly any[][]}
   */
  get record() {
    return this.#state.record
  }

  /**
   * The state vector of what this client shows, sorted by site. The next change carries it. @type {[number, number][]}
   */
  get seen() {
    return this.#state.drawing.seen()
  }

  /**
   * The pending changes: those that the server has not answered yet, oldest first.
   * @type {readonly Change[]}
   */
  get pending() {
    return this.#state.pending
  }

  /**
   * How many entries of the record were pulled, and how many the server has at least.
   * @type {{ have: number, of: number }}
   */
  get progress() {
    return this.#state.progress
  }

  /**
   * Whether the client has loaded all entries that the room had when the client joined.
   * @type {boolean}
   */
  get isLoaded() {
    return this.#state.isLoaded
  }

  /**
   * Whether a hold keeps new entries from being shown.
   * @type {boolean}
   */
  get hasNews() {
    return this.#state.hasNews
  }

  /**
   * The shown objects in the order of the record. Own objects that the record lacks come last.
   * @returns {Name[]}
   */
  objects() {
    return this.#state.objects()
  }

  /** @param {Name} object @returns {boolean} whether the object is shown */
  has(object) {
    return this.#state.drawing.has(object)
  }

  /** @param {Name} object @returns {string} the object's kind @throws {Refused} `no-such-object` */
  kind(object) {
    return this.#state.drawing.kind(object)
  }

  /** @param {Name} object @returns {Version[]} sorted by identifier @throws {Refused} `no-such-object` */
  versions(object) {
    return this.#state.drawing.versions(object)
  }

  /**
   * The current versions that contain all changes of an earlier version. There are several if later changes conflict
   * with each other but not with that version. If that version was deleted, one of them is gone. The list is empty if
   * the room was reset, or renewed twice since.
   * @param {Name} object
   * @param {Version} version any version that this room returned
   * @returns {Version[]}
   */
  successors(object, version) {
    return this.#state.successors(object, version)
  }

  /**
   * The changes of this client that have these names, also those that its site made before the page was reloaded. Of
   * those `base` is null and `made` is 0, and the `version` counts only what their author had seen.
   * @param {Name[]} names of operations
   * @returns {(Change | null)[]} null where this client shows no such change
   * @throws {TypeError} a name is invalid
   */
  changesNamed(names) {
    return this.#state.changesNamed(names)
  }

  /**
   * Adds a listener.
   * @param {"change" | "state" | "progress" | "refusal" | "reset" | "renewed" | "transaction" | "notes"} event
   * @param {(news: any) => void} listener
   * @returns {() => void} removes the listener
   * @throws {TypeError} there is no such event
   */
  on(event, listener) {
    const end = this.#events.on(event, listener)
    if (event === "notes") this.#session.useNotes()
    return end
  }

  // ---- notes

  /**
   * This client's own note: a string of at most 256 bytes in UTF-8, which others in the room see while this client is
   * in it. The empty string is none. Set it as often as you like: the client sends the newest one, at most ten times a
   * second. It sets the note again after each reconnect, and in the room's successor.
   * @type {string}
   */
  get note() {
    return this.#session.notes.own
  }

  /** @throws {TypeError | RangeError} the note is no string, has an unpaired surrogate, or exceeds 256 bytes */
  set note(text) {
    this.#session.notes.own = asNote(text)
    this.#session.useNotes()
  }

  /**
   * All notes of the room as the server last told them, the own one too: a copy, by site in ascending order. It is
   * empty while the client is not in the room, and if the server does not know notes. The first call has the client ask
   * for the notes, so listen for `notes`.
   * @type {Map<number, string>}
   */
  get notes() {
    this.#session.useNotes()
    return this.#session.notes.all
  }

  // ---- changing

  /**
   * Creates an object. It is shown at once, and sent as soon as the connection allows.
   * @param {string} kind 1 to 32 characters of a-z, 0-9 and `-`
   * @param {Record<string, Value> | Iterable<[string, Value]>} [attributes] at most 16
   * @returns {Change}
   * @throws {Refused} `not-joined`, `read-only`, `closed`, `record-full`, `too-many-objects`, `too-long`. Nothing has
   *   changed.
   * @throws {TypeError | RangeError} the kind or an attribute is invalid. Nothing has changed.
   */
  create(kind, attributes = {}) {
    return this.#state.create(asKind(kind), asAttributes(attributes))
  }

  /**
   * Sets attributes of one version in a single change. It is shown at once, and sent as soon as the connection allows.
   * All other versions stay as they are.
   * @param {Name} object
   * @param {VersionId | Version} version the base: one of the versions that are shown now
   * @param {Record<string, Value> | Iterable<[string, Value]>} attributes 1 to 16
   * @param {[number, number][]} [seen] what the author saw: an earlier value of `seen`, with a version of then. What
   *   others have changed since is concurrent with this change, but for what an own change since counts. Without it the
   *   author saw all that is shown
   * @returns {Change}
   * @throws {Refused} `not-joined`, `read-only`, `closed`, `record-full`, `no-such-object`, `no-such-version`, `gone`,
   *   `object-full`, `too-many-keys`, `too-long`. Nothing has changed.
   * @throws {TypeError | RangeError} an argument is invalid. Nothing has changed.
   */
  put(object, version, attributes, seen = undefined) {
    const rest = { attributes: asPairs(attributes) }
    return this.#state.changeVersion("put", object, version, rest, seen === undefined ? null : asSeen(seen))
  }

  /**
   * Sets one attribute of one version: a put with one attribute.
   * @param {Name} object @param {VersionId | Version} version @param {string} key @param {Value} value
   * @returns {Change}
   * @throws as `put`
   */
  set(object, version, key, value) {
    return this.put(object, version, new Map([[key, value]]))
  }

  /**
   * Deletes one version of an object. A site that has seen the drop cannot change that version any more. Concurrent
   * changes by others stay, in a version of their own whose `outlived` names this drop. All other versions stay as they
   * are.
   * @param {Name} object
   * @param {VersionId | Version} version one of the versions that are shown now
   * @returns {Change}
   * @throws {Refused} as `put`, except `too-many-keys`. Nothing has changed.
   * @throws {TypeError} an argument is invalid. Nothing has changed.
   */
  drop(object, version) {
    return this.#state.changeVersion("drop", object, version, {})
  }

  /**
   * Makes the changes of a call together: they are sent one behind the other, without waiting for replies, and reported
   * by one event `change` and one event `transaction`. They are not atomic. Others may see the first ones before the
   * last, and the server may refuse one and take the others. If the call throws, what it has changed stays.
   * @template Result
   * @param {() => Result} call makes changes before it returns. A `transaction` within it is part of this one
   * @returns {Result} what the call returns
   */
  transaction(call) {
    return this.#state.transaction(call)
  }

  /**
   * Stops showing other people's changes until you release the hold. Use it while a person drags or chooses. A change
   * then counts as seen only what the person saw. The client keeps loading, and shows the new entries when the last
   * hold is released. From a room that has ended it goes on in the next one only then.
   * @returns {() => void} releases the hold; a second call does nothing
   */
  hold() {
    let isHeld = true
    this.#state.hold()
    return () => {
      if (!isHeld) return
      isHeld = false
      this.#state.releaseHold()
      this.#session.released()
    }
  }

  /**
   * Resolves when no change is pending, or the room is closed. It never rejects.
   * @returns {Promise<void>}
   */
  settled() {
    return this.#session.settled()
  }

  /**
   * Closes the room and its connection for good. Pending changes reject with `closed`: await `settled` first to keep
   * them. With a storage they stay saved, and the next `Room` with this storage sends them.
   */
  close() {
    this.#session.end("The room was closed.")
  }
}
