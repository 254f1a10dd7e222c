/**
 * The session with the server: it connects, enters the room, sends changes, waits for news, and comes back after a lost
 * connection. At most one wait, and one question about notes, is outstanding at a time.
 */

import { Connection, Lost } from "./connection.js"
import { ConnectionState } from "./connection_state.js"
import { Entrance, nobodyIn } from "./entrance.js"
import { Denied, ProtocolFault, Refused, RenewedAs, entryOf, requestOf } from "./forms.js"
import { writeText } from "./json_text.js"
import { loadAll } from "./loading.js"
import { Notes } from "./notes.js"
import { Backoff } from "./pause.js"
import { GOES_ON } from "./room_state.js"
import { drawSame, drawingOf } from "./transfer.js"
import { Waits } from "./waits.js"

/** @typedef {import("./options.js").Options} Options */
/** @typedef {import("./room_state.js").RoomState} RoomState */

const SHORTER_RECORD = "The room was started again."
const LOOKING = "The room is full. You can look at it, but not change it."
// How long a client that may only look at the room waits before it looks again.
const LOOK_MILLISECONDS = 2000
// How many changes of a transaction are in flight. The server reads no more while twice as many replies wait.
const MOST_CHANGES = 32

export class Session {
  #address
  #firstName
  #options
  #state
  #entrance
  #connectionState
  #waits
  #notes
  // Whether the session is in the room.
  #isIn = false
  #isClosing = false
  #fault = null
  #connection = null
  /** @type {(end?: any) => void} */
  #wake = () => {}
  #settled = []

  /**
   * @param {{ address: string, name: string }} place the address to connect to, and the room
   * @param {Required<Options>} options
   * @param {RoomState} state
   * @param {(event: string, news: object) => void} emit reports an event to the program
   */
  constructor({ address, name }, options, state, emit) {
    this.#address = address
    this.#firstName = name
    this.#options = options
    this.#state = state
    this.#entrance = new Entrance(name, options.backMilliseconds, {
      request: (request, kind) => this.#request(request, kind),
      wait: (words, milliseconds) => this.#waitOutside(words, milliseconds),
    })
    this.#waits = new Waits(options)
    this.#notes = new Notes((notes) => emit("notes", { notes }))
    this.#connectionState = new ConnectionState(
      (news) => emit("state", news),
      () => (state.pending.length > 0 ? performance.now() - state.pending[0].made : null),
      () => this.#connection?.silentMilliseconds ?? 0,
    )
  }

  // ---- for the room

  get connectionState() {
    return this.#connectionState
  }

  get notes() {
    return this.#notes
  }

  /** The error that closed the room, or null. */
  get fault() {
    return this.#fault
  }

  get isClosing() {
    return this.#isClosing
  }

  get roomName() {
    return this.#entrance.name
  }

  /** The client was in this room before it was loaded anew. */
  set roomName(name) {
    this.#entrance.name = name
  }

  /** The program uses notes from now on, or has set its own. */
  useNotes() {
    this.#notes.use()
    this.#wakeIfIn()
  }

  /** The program has made a change. */
  changed() {
    this.#waits.hurry()
    this.#connectionState.update()
    this.#wakeIfIn()
  }

  /** Fewer changes are pending than before, or the room is closed. */
  answered() {
    this.#connectionState.update()
    if (!this.isSettled) return
    for (const resolve of this.#settled.splice(0)) resolve()
  }

  get isSettled() {
    return this.#state.pending.length === 0 || this.#connectionState.state === "closed"
  }

  /** @returns {Promise<void>} resolves when no change is pending, or the room is closed */
  settled() {
    if (this.isSettled) return Promise.resolve()
    return new Promise((resolve) => this.#settled.push(resolve))
  }

  /** A hold was released. */
  released() {
    if (this.#state.hasEnded) this.#wake()
  }

  /**
   * Closes the room for good.
   * @param {string} words for people
   */
  end(words) {
    if (this.#isClosing) return
    this.#isClosing = true
    this.#connection?.close()
    this.#wake()
    this.#notes.leave()
    const pending = this.#state.close()
    this.#connectionState.leave("closed", words)
    this.#state.reject(pending, new Refused("closed"))
    this.answered()
  }

  // ---- entering the room

  /** Runs until the room is closed. It never rejects. */
  async run() {
    const backoff = new Backoff(this.#options.retryMilliseconds)
    while (!this.#isClosing) {
      try {
        await this.#connect()
        const start = Date.now()
        await this.#serve().finally(() => backoff.lasted(Date.now() - start))
      } catch (fault) {
        this.#connection?.close()
        this.#notes.leave()
        if (this.#isClosing) return
        if (!(fault instanceof Lost)) return this.#closeBecauseOf(fault)
        this.#connectionState.leave("waiting", `${fault.message} Trying again.`)
        await this.#sleep(backoff.take(fault.pauseMilliseconds))
      }
    }
  }

  #closeBecauseOf(fault) {
    // Other saved state would make the next client fail in the same way.
    if (!(fault instanceof Denied) && fault.word !== "no-such-room") this.#state.clearSaved()
    this.#fault = fault
    this.end(fault.message)
  }

  /** Connects and joins. Then it pulls what the record has more, which shows which changes the server accepted. */
  async #connect() {
    this.#connectionState.connect()
    // A listener may have closed the room.
    if (this.#isClosing) throw new Lost("The room was closed.")
    this.#connection = new Connection(this.#options.connect(this.#address), this.#options.replyMilliseconds)
    await this.#connection.opened()
    this.#isIn = false
    this.#state.isEntering = true
    // All that a room has which has ended is in its record.
    if (!this.#state.hasEnded && !(await this.#rejoin())) await this.#joinOrLook()
    await this.#finishEntering()
  }

  /** Joins as a new site. If the room takes nobody new, and the option says so, the client looks at it. */
  async #joinOrLook() {
    try {
      await this.#join()
      this.#state.isLooking = false
    } catch (fault) {
      const isFull = fault.word === "room-full" || fault.word === "record-full"
      if (!isFull || !this.#options.lookIfFull) throw fault
      await this.#look()
    }
  }

  /**
   * Reads the room as a site that is free, and leaves at once, so that the person whose site it is can come back. It
   * makes no change: that person may have unsent changes with the same numbers.
   */
  async #look() {
    this.#state.isLooking = true
    const [, at] = await this.#entrance.backAsAny(this.#entrance.name).catch((fault) => {
      throw fault instanceof RenewedAs ? new Lost(GOES_ON) : fault
    })
    this.#isIn = true
    if (await this.#isOtherRecord(at)) this.#state.discardRoom()
    this.#state.count(at)
    await this.#load()
    await this.#leave()
  }

  /** Looks again and again, until the room goes on in another one. */
  async #keepLooking() {
    while (this.#state.isLooking) {
      for (const end = performance.now() + LOOK_MILLISECONDS; performance.now() < end; ) {
        await this.#sleep(end - performance.now(), this.#connection.ended)
        if (this.#isClosing || this.#connection.hasEnded) throw new Lost("The connection ended.")
      }
      await this.#look()
      this.#state.isEntering = this.#state.hasEnded
      if (this.#state.hasEnded || this.#connectionState.state === "connecting") await this.#finishEntering()
    }
  }

  /** Goes on in the next room while this one has ended. Then shows what was loaded. */
  async #finishEntering() {
    while (this.#state.hasEnded) await this.#goOn()
    this.#state.isEntering = false
    const isFirst = !this.#state.isLoaded
    this.#state.isLoaded = true
    this.#state.show()
    if (isFirst) this.#state.emitProgress()
    if (this.#state.isLooking) return this.#connectionState.enter(LOOKING)
    this.#notes.enter()
    this.#connectionState.enter(`Connected as site ${this.#state.site}.`)
  }

  /** Rejoins as this client's old site. The result is false if the client must join as a new one. */
  async #rejoin() {
    const back = this.#state.site === null ? null : await this.#requestBack()
    if (back === null) return false
    this.#isIn = true
    const [, at, , made] = back
    this.#state.length = at
    const hasRecord = this.#state.record.length > 0
    if (await this.#isOtherRecord(at)) this.#startAnew()
    else {
      await this.#load()
      const next = this.#state.pending[0]?.name[1] ?? this.#state.drawing.count(this.#state.site) + 1
      // Otherwise another client was in the room as this site, and made operations that this one has not seen.
      if (!hasRecord || next === made + 1) return true
      if (this.#state.hasEnded) {
        this.#state.becomeSite(nobodyIn(this.#state.record), this.#entrance.name)
        return true
      }
    }
    await this.#leave()
    return false
  }

  async #leave() {
    if (!this.#isIn) return
    this.#notes.leave()
    await this.#request(["leave"], "left")
    this.#isIn = false
  }

  /** The reply to `back`, or null if the client cannot rejoin as its old site. */
  async #requestBack() {
    try {
      return await this.#entrance.back(this.#state.site)
    } catch (fault) {
      if (fault instanceof RenewedAs) this.#leaveBehind(fault.room)
      else if (this.#isNoLongerThere(fault)) this.#startAnew()
      else throw fault
      return null
    }
  }

  /** Whether a refusal says that the server lost the room. It may have lost all rooms after the first one. */
  #isNoLongerThere({ word }) {
    return word === "no-such-site" || (word === "no-such-room" && this.#entrance.name !== this.#firstName)
  }

  /** Discards the room's state. The client asks for the first room again. */
  #startAnew() {
    this.#state.discardRoom()
    this.#entrance.name = this.#firstName
  }

  /** Joins as a new site. */
  async #join() {
    const joined = await this.#requestJoin()
    if (joined === null) return
    this.#isIn = true
    const [, at, site] = joined
    if (await this.#isOtherRecord(at)) this.#state.discardRoom()
    this.#state.count(at + 1)
    await this.#load()
    this.#state.becomeSite(site, this.#entrance.name)
  }

  /**
   * The reply to `join`. It is null if the room has ended while the server has the client's previous connection. The
   * client has then read it to its end, as a site that it never had.
   */
  async #requestJoin() {
    if (this.#state.record.length === 0) return this.#entrance.joinNewest(this.#state.site !== null)
    try {
      return await this.#entrance.join(this.#state.site !== null)
    } catch (fault) {
      if (!(fault instanceof RenewedAs)) throw fault
    }
    try {
      const [, at] = await this.#entrance.backAsAny(this.#entrance.name)
      this.#isIn = true
      await this.#loadEnd(at)
      this.#state.becomeSite(nobodyIn(this.#state.record), this.#entrance.name)
      return null
    } catch (fault) {
      if (!(fault instanceof RenewedAs)) throw fault
      this.#leaveBehind(fault.room)
      return this.#entrance.joinNewest(false)
    }
  }

  /** Loads a record that has ended. */
  async #loadEnd(at) {
    this.#state.length = Math.max(this.#state.length, at)
    await this.#load()
    if (!this.#state.hasEnded) throw new ProtocolFault("The server ended a room whose record has no end.")
  }

  /** Goes on in the room's successor. */
  async #goOn() {
    this.#connectionState.connect(GOES_ON)
    await this.#leave()
    await this.#untilReleased()
    const next = await this.#enterSuccessor()
    if (next === null) return this.#joinOrLook()
    await this.#untilReleased()
    this.#state.showAll()
    const [, count] = this.#state.record.at(-1)
    const [old, drawing] = [drawingOf(this.#state.record), drawingOf(next.record.slice(0, count))]
    if (drawSame(old, drawing)) return this.#switchTo(next, old, drawing)
    this.#leaveBehind(next.name)
    await this.#leave()
    await this.#joinOrLook()
  }

  /** Enters the room's successor. The result is null if the client could not take its pending changes along. */
  async #enterSuccessor() {
    try {
      // The replies count the entries of the next room.
      const next = await this.#entrance.enterSuccessor().finally(() => (this.#state.length = this.#state.record.length))
      this.#isIn = next.isIn
      return next
    } catch (fault) {
      if (fault instanceof RenewedAs) this.#leaveBehind(fault.room)
      else if (fault.word === "no-such-room") this.#startAnew()
      else throw fault
      return null
    }
  }

  /** Waits until there is no hold. */
  async #untilReleased() {
    while (this.#state.isHeld && !this.#isClosing && !this.#connection.hasEnded) {
      await this.#sleep(Infinity, this.#connection.ended)
    }
    if (this.#isClosing || this.#connection.hasEnded) throw new Lost("The connection ended.")
  }

  #switchTo(next, old, drawing) {
    const oldRoom = this.#entrance.name
    this.#entrance.name = next.name
    this.#state.goOnIn(next, oldRoom, old, drawing)
    this.#waits.hurry()
  }

  /** Goes on in the newest room of the drawing, where the old room can no longer be read. */
  #leaveBehind(room) {
    const oldRoom = this.#entrance.name
    this.#entrance.name = room
    this.#state.leaveBehind(oldRoom, room)
  }

  /** Says why the client is not in the room yet, and waits this long, unless the connection ends. */
  async #waitOutside(words, milliseconds) {
    if (this.#connectionState.words !== words) this.#connectionState.connect(words)
    await this.#sleep(milliseconds, this.#connection.ended)
  }

  /** Pulls until the client has all entries. */
  async #load() {
    const report = () => {
      if (!this.#state.isLoaded && this.#state.record.length < this.#state.length) this.#state.emitProgress()
    }
    report()
    await loadAll({
      progress: () => ({ have: this.#state.record.length, of: this.#state.length }),
      pull: (from) => this.#page(from),
      take: (entries) => {
        this.#append(entries)
        report()
      },
    })
  }

  // ---- in the room

  /**
   * Sends changes and waits for news until the connection is lost. At most one wait, and one question about notes, is
   * outstanding.
   */
  async #serve() {
    await this.#keepLooking()
    let [wait, question] = [null, null]
    while (!this.#isClosing) {
      if (this.#state.hasEnded) {
        wait = question = null
        this.#state.isEntering = true
        await this.#finishEntering()
      }
      if (question === null && this.#notes.timeLeft <= 0) question = this.#ask(wait)
      if (wait === null && this.#isWaitDue()) wait = this.#waits.send(this.#connection, this.#state.record.length)
      if (this.#state.pending.length === 0) await this.#sleepUntilWork(wait, question)
      const sent = this.#sendChanges()
      // A server that held the wait answers it now, before the change.
      if (wait !== null && (sent.length > 0 || wait.isAnswered)) {
        await this.#finishWait(wait, sent.length > 0)
        wait = null
      }
      if (question?.isAnswered) {
        await this.#finishQuestion(question)
        question = null
      }
      await this.#finishChanges(sent)
    }
  }

  /** Whether to ask for news. While changes are pending, the numbers of their replies say whether there are any. */
  #isWaitDue() {
    const { record, length, pending } = this.#state
    return record.length < length || (pending.length === 0 && this.#waits.timeLeft <= 0)
  }

  /** Waits until there is something to send, or an outstanding wait or question is answered. */
  #sleepUntilWork(wait, question) {
    const times = []
    if (wait === null) times.push(this.#waits.timeLeft)
    if (question === null) times.push(this.#notes.timeLeft)
    const replies = [wait, question].filter((one) => one !== null).map(({ reply }) => reply)
    const end = replies.length > 0 ? Promise.race(replies) : this.#connection.ended
    return this.#sleep(Math.min(...times), end)
  }

  /** Sends a request about notes, behind the outstanding wait if there is one. */
  #ask(wait) {
    if (wait !== null) wait.isQuestionBehind = true
    return this.#notes.send(this.#connection)
  }

  /** Ends the sleep of a client that is in the room. */
  #wakeIfIn() {
    if (this.#connectionState.isIn) this.#wake()
  }

  /** Waits this long. A new change or note, the end of the room, or `end` ends the wait early. */
  async #sleep(milliseconds, end = new Promise(() => {})) {
    let timer
    const slept = new Promise((resolve) => {
      if (milliseconds < Infinity) timer = setTimeout(resolve, milliseconds)
      this.#wake = resolve
    })
    await Promise.race([slept, end]).finally(() => clearTimeout(timer))
    this.#wake = () => {}
  }

  /** Sends a request and checks that the reply is of this kind. */
  async #request(request, kind) {
    return this.#checked(await this.#connection.request(writeText(request)), kind)
  }

  /** Checks that a reply is of this kind. */
  #checked(reply, kind) {
    const [word, at, room, refusal] = reply
    if (word === "no" && typeof refusal === "string") throw new Refused(refusal)
    if (word === "renewed" && typeof room === "string") throw new RenewedAs(room)
    if (word !== kind || typeof at !== "number") throw new ProtocolFault(`The server replied ${word}, not ${kind}.`)
    this.#state.length = Math.max(this.#state.length, at)
    return reply
  }

  /** Sends the oldest pending change, and behind it the others of its transaction. */
  #sendChanges() {
    const sent = []
    const [first] = this.#state.pending
    const isTogether = (change) => first.transaction !== null && change.transaction === first.transaction
    const isNext = (change) => change === first || isTogether(change)
    for (const change of this.#state.pending.slice(0, MOST_CHANGES)) {
      const text = isNext(change) ? this.#textOf(change, first) : null
      if (text === null) break
      change.isSent = true
      sent.push({ change, reply: this.#connection.request(text) })
    }
    return sent
  }

  /** The request of a change; null if a new name made it too long. It is withdrawn then, as soon as it is the first. */
  #textOf(change, first) {
    try {
      return requestOf(change.operation)
    } catch (refusal) {
      if (change === first) this.#state.withdraw(change, refusal)
      return null
    }
  }

  /** Processes the replies to changes. Behind one that is refused, the server refuses all others for their numbers. */
  async #finishChanges(sent) {
    let isRefused = false
    for (const { change, reply } of sent) {
      const answer = await reply
      if (!isRefused) isRefused = !(await this.#finishChange(change, answer))
    }
  }

  /** Processes the reply to a change. Returns whether the server has taken it. */
  async #finishChange(change, answer) {
    const { operation } = change
    if (answer[0] === "no" && answer[3] === "renewed") {
      await this.#loadEnd(answer[1])
      return false
    }
    try {
      const [, at] = this.#checked(answer, operation.word === "new" ? "made" : "taken")
      this.#state.length = Math.max(this.#state.length, at + 1)
      if (at === this.#state.record.length) this.#append([entryOf(operation)])
      else if (!this.#isClosing) this.#state.acceptUnpulled(change)
      return true
    } catch (fault) {
      if (!(fault instanceof Refused) || this.#isClosing) throw fault
      this.#state.withdraw(change, fault)
      return false
    }
  }

  async #page(from) {
    return this.#entriesOf(await this.#connection.request(writeText(["pull", from])), from)
  }

  /** The entries of a page from this one on. */
  #entriesOf(reply, from) {
    const [, , place, entries] = this.#checked(reply, "entries")
    if (place !== from || !Array.isArray(entries)) throw new ProtocolFault("The server sent the wrong page.")
    return entries
  }

  /** Shows what a wait brought. */
  async #finishWait(wait, isChangeBehind) {
    try {
      const entries = this.#entriesOf(await wait.reply, wait.from)
      if (entries.length === 0 && !wait.isQuestionBehind) {
        this.#notes.mayHaveChanged()
        if (!isChangeBehind) this.#waits.broughtNothing(wait)
      }
      this.#append(entries)
    } catch (fault) {
      // Coming back finds the other record.
      throw fault.word === "too-far" ? new Lost(SHORTER_RECORD) : fault
    }
  }

  /** Takes the notes of the reply to a question. */
  async #finishQuestion({ reply }) {
    const answer = await reply
    if (this.#isClosing) return
    try {
      const [, , notes] = this.#checked(answer, "notes")
      if (this.#notes.receive(notes)) this.#waits.hurry()
    } catch (fault) {
      if (fault.word !== "bad-message") throw fault
      this.#notes.giveUp()
    }
  }

  /** Takes the next entries of the record. */
  #append(entries) {
    // Another client may own the storage now.
    if (this.#isClosing) return
    if (entries.length === 0 && this.#state.record.length < this.#state.length) {
      throw new ProtocolFault("The server sent an empty page.")
    }
    if (entries.length > 0) this.#waits.hurry()
    this.#state.append(entries)
  }

  /**
   * Whether the server has a different record than the one that this client pulled, as after a restart without
   * `--keep`. It compares the last operation, because its state vector tells records apart.
   * @param {number} at how many entries the server had when this client joined
   */
  async #isOtherRecord(at) {
    if (at < this.#state.record.length) return true
    if (this.#state.record.length === 0) return false
    const last = Math.max(0, this.#state.record.findLastIndex(([word]) => word !== "join" && word !== "next"))
    const pulled = this.#state.record.slice(last)
    const page = await this.#page(last)
    return page.some((entry, place) => place < pulled.length && writeText(entry) !== writeText(pulled[place]))
  }
}
