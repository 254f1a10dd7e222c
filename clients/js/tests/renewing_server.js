/**
 * As much of a server as the clients of one drawing need whose room is renewed. Its rooms are `r`, `r.2`, `r.3` and so
 * on. The newest one takes changes; it and the one before it can be read.
 */

import { Drawing, Refused, operationOf, readText, writeText } from "../grace.js"
import { renewalOf } from "./program.js"

const PAGE = 64
const JOINED = ["join", "back"]

/** A room: its record, the drawing of it, the sites that sessions are in, and their notes. */
class ServedRoom {
  drawing = new Drawing()
  record = []
  sites = new Set()
  notes = new Map()
  noteChanges = 0

  constructor(name, entries) {
    this.name = name
    for (const entry of entries) this.add(entry)
  }

  get hasEnded() {
    return this.record.at(-1)?.[0] === "next"
  }

  add(entry) {
    const operation = operationOf(entry)
    if (operation !== null) this.drawing.add(operation)
    this.record.push(entry)
  }

  /** Sets the note of a site; the empty text removes it. */
  note(site, text) {
    if (text === (this.notes.get(site) ?? "")) return
    this.notes.set(site, text)
    if (text === "") this.notes.delete(site)
    this.noteChanges += 1
  }
}

/** A client's session. */
class Session {
  room = null
  site = null
  // From where the client waits for news, or null.
  waitsFrom = null
  // How often notes had changed when the client last heard of them, or null if it has not asked for them.
  #heardNotes = null

  constructor(server) {
    this.server = server
    this.socket = { close: () => this.end(), send: (text) => this.#take(text), onmessage: () => {}, onclose: () => {} }
    queueMicrotask(() => this.socket.onopen())
  }

  /** Whether the client has heard of all changes of notes, or has not asked for them. */
  get hasHeardNotes() {
    return this.#heardNotes === null || this.#heardNotes === this.room.noteChanges
  }

  end() {
    if (this.room !== null) this.#leave()
    this.server.sessions.delete(this)
    this.socket.onclose({})
  }

  /** Answers a held wait, where there is news or it is over. */
  endWait() {
    if (this.waitsFrom === null) return
    this.#reply(this.#page(this.waitsFrom))
    this.waitsFrom = null
    this.#hearNotes()
  }

  #take(text) {
    queueMicrotask(() => {
      if (!this.server.sessions.has(this)) return
      this.endWait()
      this.server.requests.push(text)
      this.server.before(text)
      if (this.server.sessions.has(this)) this.#answer(readText(text))
    })
  }

  #reply(reply) {
    this.socket.onmessage({ data: writeText(reply) })
  }

  #answer([word, ...rest]) {
    const isHeld = word === "wait" && rest[0] === this.room.record.length && this.hasHeardNotes
    if (isHeld) this.waitsFrom = rest[0]
    else this.#reply(this.#answerTo(word, rest))
    if (word === "wait") this.#hearNotes()
  }

  #answerTo(word, rest) {
    if (JOINED.includes(word)) return this.#enter(word, ...rest)
    if (word === "pull" || word === "wait") return this.#page(rest[0])
    if (word === "leave") return this.#leave()
    if (word === "note" || word === "notes") return this.#note(...rest)
    return this.#change(word, rest)
  }

  #enter(word, name, site) {
    if (this.room !== null) return ["no", 0, 3, "already-joined"]
    const { rooms, newest } = this.server
    const room = rooms.get(name)
    if (room === undefined) return ["no", 0, 4, "no-such-room"]
    const isOpen = room === newest || (word === "back" && room === [...rooms.values()].at(-2))
    if (!isOpen) return ["renewed", 0, newest.name]
    const at = room.record.length
    if (word === "back") return this.#back(room, site, at)
    if (this.server.isFull) return ["no", at, 5, "room-full"]
    this.site = room.record.filter(([one]) => one === "join").length + 1
    this.#sit(room)
    this.server.add(["join", this.site])
    return ["joined", at, this.site]
  }

  #back(room, site, at) {
    if (room.sites.has(site)) return ["no", at, 20, "site-in-use"]
    if (!room.record.some(([word, one]) => word === "join" && one === site)) return ["no", at, 19, "no-such-site"]
    this.site = site
    this.#sit(room)
    return ["back", at, site, room.drawing.count(site)]
  }

  #sit(room) {
    this.room = room
    this.#heardNotes = null
    room.sites.add(this.site)
  }

  #leave() {
    const { room } = this
    room.sites.delete(this.site)
    room.note(this.site, "")
    this.room = null
    this.server.tellNotes(room)
    return ["left", room.record.length]
  }

  #hearNotes() {
    if (this.#heardNotes !== null) this.#heardNotes = this.room.noteChanges
  }

  /** The answer to a request about notes, which sets the own one if there is a text. */
  #note(text) {
    const { room } = this
    if (!this.server.knowsNotes) return ["no", 0, 1, "bad-message"]
    if (text !== undefined) room.note(this.site, text)
    this.#heardNotes = room.noteChanges
    this.server.tellNotes(room)
    return ["notes", room.record.length, [...room.notes].sort(([one], [other]) => one - other)]
  }

  #page(from) {
    const { record } = this.room
    return ["entries", record.length, from, record.slice(from, from + PAGE)]
  }

  #change(word, [number, ...rest]) {
    const at = this.room.record.length
    if (this.room.hasEnded) return ["no", at, 22, "renewed"]
    try {
      this.server.add([word, [this.site, number], ...rest])
    } catch (fault) {
      if (!(fault instanceof Refused)) throw fault
      return ["no", at, fault.code, fault.word]
    }
    return word === "new" ? ["made", at, [this.site, number]] : ["taken", at, [[]]]
  }
}

export class RenewingServer {
  rooms = new Map()
  sessions = new Set()
  requests = []
  /** Called with each request, before it is answered. */
  before = () => {}
  /** Whether the port accepts no client. */
  isDown = false
  /** Whether it answers requests about notes. */
  knowsNotes = true
  /** Whether the newest room lets nobody join. */
  isFull = false

  /** @param {any[][]} [entries] of the first room */
  constructor(entries = []) {
    this.#open("r", entries)
  }

  get newest() {
    return [...this.rooms.values()].at(-1)
  }

  /** Opens a connection: the library's option. */
  connect = () => {
    const session = new Session(this)
    this.sessions.add(session)
    return session.socket
  }

  /** Adds an entry to the newest room. */
  add(entry) {
    this.newest.add(entry)
    this.#tell(this.newest)
  }

  /**
   * Ends the newest room, and opens its successor, if it has a renewal that is not longer. A room that nobody has joined
   * is not nearly full.
   */
  renew() {
    const old = this.newest
    const start = old.record.length > 0 ? renewalOf(old.record) : null
    if (start === null) return
    old.add(["next", start.length])
    this.#open(`r.${this.rooms.size + 1}`, start)
    this.#tell(old)
  }

  /** Answers the waits of a room where notes have changed that the client has not heard of. */
  tellNotes(room) {
    for (const session of this.sessions) if (session.room === room && !session.hasHeardNotes) session.endWait()
  }

  /** Ends all connections. */
  cut() {
    for (const session of [...this.sessions]) session.end()
  }

  #open(name, entries) {
    this.rooms.set(name, new ServedRoom(name, entries))
  }

  #tell(room) {
    for (const session of this.sessions) if (session.room === room) session.endWait()
  }
}
