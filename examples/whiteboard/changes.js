/**
 * What the user does to objects. Each call is one step, which the user can undo. Undoing a put sets the old values
 * again, and undoing a creation drops the object. Nothing can continue a version that is gone, so undoing a drop
 * creates a new object. A change that other people have built on cannot be undone, and the page says so. A step that
 * the room refuses to reverse stays.
 */

import { LIMITS, Refused } from "../../clients/js/grace.js"
import { keyOf } from "./board.js"
import { Entries } from "./entries.js"
import { withoutMakers } from "./maker_keys.js"
import { Makers } from "./makers.js"
import { Irreversible, Outcomes } from "./outcomes.js"
import { SavedSteps } from "./saved_steps.js"
import { USUAL } from "./shapes.js"
import { Space, entriesOfNew } from "./space.js"
import { REFUSED, Undo } from "./undo.js"
import { FINAL_DELETION, NOT_ALL_FIT, separateWords } from "./words.js"

export class Changes {
  /** Whether the room's current change comes from this page. */
  isActing = false
  #undo = new Undo()
  #acts = null
  // All sites that this page has been.
  #sites = new Set()
  // The deletions that the user made.
  #drops = []
  // By a change that reverses an action: "undone" or "redone".
  #reversals = new WeakMap()
  #outcomes
  #saved

  /** @param {import("./whiteboard.js").Page} page @param {string} roomName the first room's name */
  constructor(page, roomName) {
    this.page = page
    this.#saved = new SavedSteps(page.room, roomName)
    this.entries = new Entries(page.room)
    this.#outcomes = new Outcomes(page.board, this.entries, (name) => this.isOwn(name))
    this.makers = new Makers(page, this.entries)
    this.space = new Space(page.board)
    page.room.on("reset", () => this.#reset())
    page.room.on("renewed", () => this.#goOn())
    page.room.on("refusal", ({ refusal, change }) => this.#refused(refusal, change))
  }

  /** Whether the user made an operation. */
  isOwn([site]) {
    return this.#sites.has(site) || site === this.page.room.site
  }

  /** Whether the user has deleted versions since the page was opened, by this operation. */
  hasDropped(name) {
    return this.#drops.some((change) => keyOf(change.name) === keyOf(name))
  }

  get canUndo() {
    return this.#undo.hasDone
  }

  get canRedo() {
    return this.#undo.hasUndone
  }

  /** Makes one step of all changes in the call. */
  step(call) {
    if (this.#acts !== null) return call()
    this.#acts = []
    try {
      return call()
    } finally {
      const acts = this.#acts
      this.#acts = null
      this.#undo.note(acts)
      this.page.view.change([])
    }
  }

  /**
   * Creates an object. Returns the change, or null if it was refused. @param {Iterable<[string, any]> | object}
   * attributes
   */
  create(kind, attributes) {
    const pairs = Symbol.iterator in attributes ? [...attributes] : Object.entries(attributes)
    const form = { kind, attributes: new Map(pairs), isNew: true }
    return this.step(() => this.#act(() => this.#create(kind, pairs), form))?.change ?? null
  }

  /** Creates an object and selects it. */
  draw(kind, attributes) {
    this.drawAll([{ kind, attributes }])
  }

  /** Creates objects in one step and selects them, or none if they do not all fit. */
  drawAll(forms) {
    if (forms.length > 1 && !this.space.takesAll(forms)) return this.page.say(NOT_ALL_FIT)
    const createAll = () => forms.map(({ kind, attributes }) => this.create(kind, attributes))
    const all = this.step(() => this.#together(createAll))
    const made = all.filter((change) => change !== null).map(({ object }) => object)
    if (made.length > 0) this.page.tools.end()
    this.#show(made)
  }

  /** Creates as many of these objects as the room takes, in one step, and selects them. Returns how many. */
  drawMost(forms) {
    const fitting = forms.slice(0, this.space.fitting(forms))
    const createAll = () => fitting.map(({ kind, attributes }) => this.#act(() => this.#create(kind, attributes), null))
    const acts = this.step(() => this.#together(createAll)).filter((act) => act !== null)
    this.#show(acts.map(({ change }) => change.object))
    return acts.length
  }

  /** Selects objects that were created or changed. */
  #show(names) {
    if (names.length === 0) return
    this.page.selectAll(names)
    this.page.view.reach(names[0])
  }

  /**
   * Sets attributes of a version in one change, and picks the new version. Returns the change, or null. With `isKept`
   * the caller keeps what the room refuses. `seen` is the room's state vector of when the user began.
   */
  put(name, version, attributes, { isKept = false, seen } = {}) {
    const form = isKept ? null : this.#formOf(name, version, attributes)
    const change = this.step(() => this.#act(() => this.#put(name, version, attributes, seen), form))?.change ?? null
    if (isKept && change !== null) this.page.refusedChanges.leave(change)
    return change
  }

  /**
   * Deletes versions in turn, and stops at a refusal. The other versions keep their identifiers. If that could not be
   * undone, the page asks first.
   */
  drop(name, versions) {
    this.dropAll(versions.map((version) => ({ name, version })))
  }

  /** Deletes versions of objects in the same way. */
  dropAll(chosen) {
    const drop = ({ name, version }) => this.#act(() => this.#drop(name, version), null) !== null
    const dropAll = () => this.#together(() => chosen.every(drop))
    this.#deleting(chosen.map(({ version }) => version), () => this.step(dropAll))
  }

  /** Sets attributes of the picked versions of what is selected, where they differ from the present ones. */
  change(attributes) {
    const { board, say } = this.page
    if (board.selection.size === 0) return
    const { chosen } = board
    if (chosen.length === 0) return say("Pick a version of this object first. Your change applies to that one.")
    this.step(() => chosen.forEach(({ name, version }) => this.#changeOne(name, version, attributes)))
  }

  #changeOne(name, version, attributes) {
    const isOther = ([key, value]) => version.attributes.get(key) !== value
    if (Object.entries(attributes).some(isOther)) this.put(name, version, attributes)
  }

  /** Gives a shape, once, the text by which lines that stick to it name it. That is no step of its own. */
  mark(name) {
    const { board, refusedChanges, room } = this.page
    const version = board.picked(name)
    const id = board.connections.textOf(name)
    if (version === null || version.attributes.get("id") === id) return
    try {
      refusedChanges.leave(this.#make(() => room.put(name, version, { id })))
    } catch (fault) {
      // The line sticks to the shape as long as this room lasts.
      if (!isRefusal(fault)) throw fault
    }
  }

  undo() {
    this.page.nudges.end()
    this.#turn("undone", () => this.#undo.lastDone, (reverse) => this.#undo.undo(reverse))
  }

  redo() {
    this.page.nudges.end()
    this.#turn("redone", () => this.#undo.lastUndone, (reverse) => this.#undo.redo(reverse))
  }

  /** Reverses the last step. Reversing a creation is a deletion. */
  #turn(word, last, turn) {
    const step = last()
    const created = step.filter((act) => act.word === "create").map(({ change }) => change.version)
    this.#deleting(created, () => {
      // The user may have done more before the answer.
      if (last() !== step) return
      const [restored, shown] = [[], []]
      this.#together(() => turn((act) => {
        const reverse = this.#reverse(act, step, word)
        if (act.word === "drop" && reverse?.word === "create") restored.push(act)
        if (reverse?.word === "create" || reverse?.word === "put") shown.push(reverse.change.object)
        return reverse
      }))
      this.#show(shown)
      this.#tellOfSeparate(restored)
      this.page.view.change([])
    })
  }

  /** Takes up the steps that this tab saved before a reload. */
  begin() {
    const { done, undone, restored } = this.#saved.take()
    this.#undo.begin(done, undone)
    for (const [key, act] of restored) this.#outcomes.restore(key, act)
  }

  /** Saves the steps for a reload of this tab, but none that was made in an earlier room. */
  save() {
    const steps = this.#undo.stepsOf((act) => this.#outcomes.isOfThisRoom(act))
    this.#saved.save({ ...steps, restored: this.#outcomes.restored })
  }

  #reset() {
    this.#undo.clear()
    this.#saved.forget()
  }

  /** Says that versions came back as objects of their own, while their object has other versions. */
  #tellOfSeparate(restored) {
    const { board, say } = this.page
    const separate = restored.filter(({ change }) => board.shown(change.object).length > 0)
    if (separate.length === 0) return
    const [shape] = board.shapes(separate[0].change.object)
    say(separateWords(separate.length, shape))
  }

  /** The drawing goes on in another room, where operations have other names. */
  #goOn() {
    this.#sites.clear()
    this.#drops = this.#drops.filter((change) => this.page.room.pending.includes(change))
    this.#outcomes.goOn(this.#undo.acts)
  }

  /** Does what deletes these versions, at once or after a question. */
  #deleting(versions, act) {
    const isFinal = versions.length > 0 && this.space.makesFinal(versions)
    if (isFinal) this.page.say(FINAL_DELETION, { words: "Delete for good", act })
    else act()
  }

  // ---- actions: each takes effect at once, and returns how to reverse it

  /** The object that a change of a version would make, or null if there is no such object. */
  #formOf(name, version, attributes) {
    const { room } = this.page
    if (!room.has(name)) return null
    return { kind: room.kind(name), attributes: new Map([...version.attributes, ...Object.entries(attributes)]) }
  }

  /**
   * Does an action of the current step. If the room refuses it, tells the user, keeps what would be lost, and returns
   * null.
   */
  #act(call, lost) {
    try {
      const act = call()
      this.#acts.push(act)
      return act
    } catch (fault) {
      if (!isRefusal(fault)) throw fault
      this.page.refusedChanges.refuse(fault, lost)
      return null
    }
  }

  /** Makes a change. @throws {Refused | RangeError} */
  #make(call) {
    const isActing = this.isActing
    this.isActing = true
    try {
      return call()
    } finally {
      this.isActing = isActing
      this.#sites.add(this.page.room.site)
    }
  }

  /** Makes many changes that the room saves, sends and reports together. */
  #together(call) {
    return this.#make(() => this.page.room.transaction(call))
  }

  /** The server refused a change that the page had shown. */
  #refused(refusal, change) {
    this.#undo.refuse(change)
    const word = this.#reversals.get(change)
    const words = word === undefined ? refusal.message : `This can't be ${word}: ${refusal.message}`
    this.page.refusedChanges.withdraw(refusal, change, words)
    this.page.view.change([])
  }

  /** A creation takes a limited number of attributes, and puts add the rest. A copy has no names of earlier makers. */
  #create(kind, attributes) {
    const { room } = this.page
    const drawn = withoutMakers(attributes)
    if (this.space.entries < entriesOfNew(drawn.length)) throw new Refused("record-full")
    const pairs = [...drawn, ...this.makers.ofNew(drawn.length)]
    const change = this.#make(() => room.create(kind, pairs.slice(0, LIMITS.attributes)))
    let { version } = change
    for (let from = LIMITS.attributes; from < pairs.length; from += LIMITS.attributes) {
      const more = pairs.slice(from, from + LIMITS.attributes)
      version = this.#make(() => room.put(change.object, version, more)).version
    }
    return { word: "create", change, after: new Map(drawn) }
  }

  #put(name, version, attributes, seen) {
    const { board, room, view } = this.page
    const all = { ...attributes, ...this.makers.ofPut(name, version, Object.keys(attributes)) }
    const change = this.#make(() => room.put(name, version, all, seen))
    board.pick(name, change.version)
    view.change([name])
    const before = Object.keys(attributes).map((key) => [key, version.attributes.get(key) ?? USUAL[key] ?? ""])
    return { word: "put", change, before: Object.fromEntries(before), after: new Map(Object.entries(attributes)) }
  }

  #drop(name, version) {
    const { room } = this.page
    const change = this.#make(() => room.drop(name, version))
    this.#drops.push(change)
    return { word: "drop", change, kind: room.kind(name), attributes: version.attributes }
  }

  // ---- reversing an action

  /**
   * Reverses an action of a step. Returns the reverse action, null if that is impossible, or `REFUSED`. In these cases
   * it tells the user why.
   */
  #reverse(act, step, word) {
    try {
      const reverse = act.word === "drop" ? this.#restore(act) : this.#reversePut(act)
      this.#reversals.set(reverse.change, word)
      this.page.refusedChanges.leave(reverse.change)
      return reverse
    } catch (fault) {
      const words = `This can't be ${word}: ${fault.message}`
      if (fault instanceof Irreversible) {
        this.page.say(words)
        return null
      }
      if (!isRefusal(fault)) throw fault
      this.page.say(`${words} `, { words: "Skip this step", act: () => this.#skip(step) })
      return REFUSED
    }
  }

  /** Leaves out a step, so that the one before it can be reversed. */
  #skip(step) {
    this.#undo.skip(step)
    this.page.view.change([])
  }

  #restore({ change, kind, attributes }) {
    const act = this.#create(kind, [...attributes])
    this.#outcomes.restore(keyOf(change.object), act)
    return act
  }

  #reversePut(act) {
    const { name, version } = this.#outcomes.latestOf(act)
    return act.word === "create" ? this.#drop(name, version) : this.#put(name, version, act.before)
  }
}

/** Whether the room, or its library, refused a change. */
const isRefusal = (fault) => fault instanceof Refused || fault instanceof RangeError
