/**
 * The steps that can be undone, and those that can be redone. A step is a list of actions, each with its change. The
 * library's `UndoManager` records each transaction as a step. The page needs more: a step that the room refuses to
 * reverse can be skipped, a deletion that cannot be undone is asked about before, some changes are no step, and an
 * object that comes back carries other names of its makers, and is made only if all of it fits.
 */

/** What reversing an action gives if the room refuses it: the action stays. */
export const REFUSED = Symbol("refused")

export class Undo {
  #done = []
  #undone = []
  // By a change that reverses an action: that action, its step, and the steps that it was in.
  #origins = new WeakMap()

  get hasDone() {
    return this.#done.length > 0
  }

  get hasUndone() {
    return this.#undone.length > 0
  }

  /** The actions of the step that `undo` would undo. */
  get lastDone() {
    return this.#done.at(-1) ?? []
  }

  /** The actions of the step that `redo` would redo. */
  get lastUndone() {
    return this.#undone.at(-1) ?? []
  }

  /** The actions of all steps. */
  get acts() {
    return [...this.#done, ...this.#undone].flat()
  }

  /**
   * Records a step. The undone steps can no longer be redone.
   * @param {any[]} acts
   */
  note(acts) {
    if (acts.length === 0) return
    this.#done.push(acts)
    this.#undone = []
  }

  /**
   * Undoes the last step, starting with its last action. It stops at an action that the room refuses to reverse. That
   * one and those before it stay.
   * @param {(act: any) => any} turn reverses an action, and returns the reverse action, `REFUSED`, or null if it never
   *   can
   */
  undo(turn) {
    this.#turnLast(this.#done, this.#undone, turn)
  }

  /** Redoes the step that was undone last, in the same way. */
  redo(turn) {
    this.#turnLast(this.#undone, this.#done, turn)
  }

  /** Removes the action of a change that the room has refused. What that action reversed can be reversed again. */
  refuse(change) {
    for (const steps of [this.#done, this.#undone]) keepSteps(steps, (act) => act.change !== change)
    const origin = this.#origins.get(change)
    if (origin === undefined) return
    this.#origins.delete(change)
    origin.step.push(origin.act)
    if (!origin.steps.includes(origin.step)) origin.steps.push(origin.step)
  }

  /** Removes a step, so that the one before it comes next. */
  skip(step) {
    for (const steps of [this.#done, this.#undone]) keepSteps(steps, (act) => !step.includes(act))
  }

  /** Of the steps that are done, and of those that are undone, the ones behind the last that has no such actions. */
  stepsOf(isKept) {
    const kept = (steps) => steps.slice(steps.findLastIndex((step) => !step.every(isKept)) + 1)
    return { done: kept(this.#done), undone: kept(this.#undone) }
  }

  /** Puts steps of before in front of the present ones. After a new step nothing of before can be redone. */
  begin(done, undone) {
    if (this.#done.length === 0) this.#undone.unshift(...undone)
    this.#done.unshift(...done)
  }

  /** Removes all steps. */
  clear() {
    this.#done = []
    this.#undone = []
  }

  #turnLast(from, to, turn) {
    const step = from.pop() ?? []
    const turned = []
    while (step.length > 0) {
      const act = step.at(-1)
      const reverse = turn(act)
      if (reverse === REFUSED) break
      step.pop()
      if (reverse === null) continue
      turned.push(reverse)
      this.#origins.set(reverse.change, { act, step, steps: from })
    }
    if (step.length > 0) from.push(step)
    if (turned.length > 0) to.push(turned)
  }
}

/** Removes all actions but these, and the steps that have none then. */
function keepSteps(steps, isKept) {
  for (const acts of steps) acts.splice(0, acts.length, ...acts.filter(isKept))
  steps.splice(0, steps.length, ...steps.filter((acts) => acts.length > 0))
}
