/**
 * Undo and redo of what this client did in a room. A step has the changes of one transaction. Undoing a put sets the
 * values of before again. Undoing a creation drops the object. No operation continues a version that is gone, so
 * undoing a drop creates a new object. A change that others have built on stays.
 */

import { LIMITS, Refused, codeOf } from "./forms.js"

/** @typedef {import("./change.js").Change} Change */
/** @typedef {import("./drawing.js").Version} Version */
/** @typedef {import("./forms.js").Name} Name */
/** @typedef {import("./forms.js").Value} Value */
/** @typedef {import("./room.js").Room} Room */

const MOST_STEPS = 200

// Why a change cannot be undone, whatever happens later.
const WORDS = {
  "changed": "Somebody has changed it since.",
  "deleted": "Somebody deleted it.",
  "several-versions": "Others changed it at the same time, so it has several versions.",
  "left-behind": "The drawing went on in another room without it.",
  "unknown-base": "It is not known what it was before.",
}

/**
 * A change that could not be undone or redone. `reason` is one of the words above, or that of a refusal. `words` is a
 * sentence for people.
 * @typedef {{ change: Change, reason: string, words: string }} Failure
 */

/**
 * A change of a step, with what it was when it was made.
 * @typedef {{ change: Change, word: string, after: Map<string, Value>, isEarlier: boolean }} Act
 */

class Irreversible extends Error {
  constructor(reason) {
    super(WORDS[reason])
    this.reason = reason
  }
}

/** The steps of one client. While it exists, it records what the program does in the room. */
export class UndoManager {
  #room
  #valueOfAbsent
  #mostSteps
  // Each step is a list of acts, oldest first.
  #done = []
  #undone = []
  // All sites that this client has been.
  #sites = new Set()
  // By the code of a deleted object: the act that created it again.
  #restored = new Map()
  // By a change that reverses an act: that act, its step, and the steps that it was in.
  #origins = new WeakMap()
  // All changes that reverse something.
  #reversals = new WeakSet()
  #ends

  /**
   * @param {Room} room
   * @param {{ valueOfAbsent?: (kind: string, key: string) => Value, mostSteps?: number }} [options] `valueOfAbsent` is
   *   the value that undoing a put gives to a key that had none before, as no operation removes a key: `""`.
   *   `mostSteps` is how many steps are kept: 200
   */
  constructor(room, options = {}) {
    const { valueOfAbsent = () => "", mostSteps = MOST_STEPS } = options
    this.#room = room
    this.#valueOfAbsent = valueOfAbsent
    this.#mostSteps = mostSteps
    this.#ends = [
      room.on("transaction", ({ changes }) => this.#note(changes)),
      room.on("refusal", ({ change }) => this.#refuse(change)),
      room.on("reset", () => this.clear()),
      room.on("renewed", () => this.#goOn()),
    ]
  }

  /** Whether there is a step to undo. */
  get canUndo() {
    return this.#done.length > 0
  }

  /** Whether there is a step to redo. */
  get canRedo() {
    return this.#undone.length > 0
  }

  /**
   * Undoes the last step, starting with its last change. At a change that the room refuses now, it stops: that one and
   * those before it stay in the step. A change that never can be undone is left out.
   * @returns {{ changes: Change[], failures: Failure[] }} the new changes, and why others were not made
   */
  undo() {
    return this.#turn(this.#done, this.#undone)
  }

  /**
   * Redoes the step that was undone last, in the same way. A new transaction forgets all undone steps.
   * @returns {{ changes: Change[], failures: Failure[] }}
   */
  redo() {
    return this.#turn(this.#undone, this.#done)
  }

  /** Forgets all steps. */
  clear() {
    this.#done = []
    this.#undone = []
    this.#restored.clear()
  }

  /** Ends the recording, and forgets all steps. */
  end() {
    this.#ends.forEach((end) => end())
    this.clear()
  }

  #note(changes) {
    for (const { name: [site] } of changes) this.#sites.add(site)
    const step = changes.filter((change) => !this.#reversals.has(change)).map((change) => actOf(change))
    if (step.length === 0) return
    this.#undone = []
    this.#push(this.#done, step)
  }

  #push(steps, step) {
    steps.push(step)
    if (steps.length > this.#mostSteps) steps.shift()
  }

  /** The room has refused a change. What that reversed can be reversed again. */
  #refuse(change) {
    for (const steps of [this.#done, this.#undone]) {
      for (const step of steps) step.splice(0, step.length, ...step.filter((act) => act.change !== change))
      steps.splice(0, steps.length, ...steps.filter((step) => step.length > 0))
    }
    const origin = this.#origins.get(change)
    if (origin === undefined) return
    this.#origins.delete(change)
    origin.step.push(origin.act)
    if (!origin.steps.includes(origin.step)) origin.steps.push(origin.step)
  }

  /** The drawing goes on in another room, where operations have other names. */
  #goOn() {
    this.#sites.clear()
    for (const act of [...this.#done.flat(), ...this.#undone.flat(), ...this.#restored.values()]) act.isEarlier = true
  }

  /** Reverses the last of these steps. Its reverse becomes the last of the other steps. */
  #turn(from, to) {
    const step = from.pop() ?? []
    const [turned, failures] = [[], []]
    try {
      this.#room.transaction(() => {
        while (step.length > 0 && this.#turnLast(step, from, turned, failures));
      })
    } finally {
      if (step.length > 0) from.push(step)
      if (turned.length > 0) this.#push(to, turned)
    }
    return { changes: turned.map(({ change }) => change), failures }
  }

  /** Reverses the last act of a step. Returns false if the room refuses that now. */
  #turnLast(step, steps, turned, failures) {
    const act = step.at(-1)
    try {
      const reverse = this.#reverse(act)
      if (act.word === "drop") this.#restored.set(codeOf(act.change.object), reverse)
      this.#origins.set(reverse.change, { act, step, steps })
      turned.push(reverse)
    } catch (fault) {
      const isRefusal = fault instanceof Refused
      if (!isRefusal && !(fault instanceof Irreversible)) throw fault
      const reason = isRefusal ? fault.word : fault.reason
      failures.push({ change: act.change, reason, words: fault.message })
      if (isRefusal) return false
    }
    step.pop()
    return true
  }

  /** @returns {Act} what reverses an act @throws {Refused | Irreversible} */
  #reverse(act) {
    const { change, word, after } = act
    if (word !== "new" && change.base === null) throw new Irreversible("unknown-base")
    if (word === "drop") return this.#create(change.kind, change.base.attributes)
    const { object, version } = this.#latest(act)
    if (word === "new") return actOf(this.#make(() => this.#room.drop(object, version)))
    const valueOf = (key) => change.base.attributes.get(key) ?? this.#valueOfAbsent(change.kind, key)
    const values = new Map([...after.keys()].map((key) => [key, valueOf(key)]))
    return actOf(this.#make(() => this.#room.put(object, version, values)))
  }

  /** A creation takes a limited number of attributes. Puts add the rest. */
  #create(kind, attributes) {
    const pairs = [...attributes]
    const part = (from) => pairs.slice(from, from + LIMITS.attributes)
    const change = this.#make(() => this.#room.create(kind, part(0)))
    let { version } = change
    for (let from = LIMITS.attributes; from < pairs.length; from += LIMITS.attributes) {
      version = this.#make(() => this.#room.put(change.object, version, part(from))).version
    }
    return actOf(change, attributes)
  }

  #make(call) {
    const change = call()
    this.#reversals.add(change)
    return change
  }

  /** The version that an act made, or that of the object which was created again, if nobody else has built on it. */
  #latest(act) {
    const { change } = act
    const found = this.#room.successors(change.object, change.version).filter(({ isGone }) => !isGone)
    if (found.length === 0) {
      const again = this.#restored.get(codeOf(change.object))
      if (again !== undefined) return this.#latest(again)
      throw new Irreversible(this.#room.has(change.object) ? "deleted" : "left-behind")
    }
    if (found.length > 1) throw new Irreversible("several-versions")
    const [version] = found
    const isChanged = act.isEarlier ? !hasValuesOf(version, act) : this.#isBuiltOn(version, change)
    if (isChanged) throw new Irreversible("changed")
    return { object: change.object, version }
  }

  /** Whether somebody else has seen a change and then changed the same version. */
  #isBuiltOn(version, { object, name: [site, number] }) {
    const code = codeOf(object)
    const isOwn = (author) => this.#sites.has(author) || author === this.#room.site
    const isLater = ([word, name, seen, target]) =>
      CHANGES.includes(word) && codeOf(target) === code && !isOwn(name[0]) && version.has(name) &&
      seen.some(([other, count]) => other === site && count >= number)
    return this.#room.record.some(isLater)
  }
}

// The words of entries that change an object. The first is the old form of a put.
const CHANGES = ["set", "put", "drop"]

/** @returns {Act} */
function actOf(change, after = change.operation.attributes ?? []) {
  return { change, word: change.operation.word, after: new Map(after), isEarlier: false }
}

/** Whether a version still has the values of an act. One that was created has no others. */
function hasValuesOf({ attributes }, { word, after }) {
  const keys = word === "new" ? attributes.keys() : after.keys()
  return [...keys].every((key) => attributes.get(key) === after.get(key))
}
