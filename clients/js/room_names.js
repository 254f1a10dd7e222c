/** The names of a room and of its successors: `plan`, then `plan.2`, `plan.3` and so on. */

import { LIMITS } from "./forms.js"

const NAME = /^([a-z0-9-]+)(?:\.([2-9]|[1-9][0-9]{1,5}))?$/
const LAST_NUMBER = 999999

/** The first name of a room, and its number among its successors, from 1. */
function partsOf(name) {
  const found = NAME.exec(name)
  return found === null ? null : { first: found[1], number: Number(found[2] ?? 1) }
}

/**
 * The name of a room's successor; null if it would be too long, or its number too large.
 * @param {string} name
 */
export function successorOf(name) {
  const { first, number } = partsOf(name)
  const successor = `${first}.${number + 1}`
  return number < LAST_NUMBER && successor.length <= LIMITS.roomBytes ? successor : null
}

/**
 * Whether a text is the name of a room that comes after another one.
 * @param {string} name
 * @param {string} before
 */
export function isAfter(name, before) {
  const [parts, earlier] = [partsOf(name), partsOf(before)]
  return parts !== null && parts.first === earlier.first && parts.number > earlier.number
}
