/**
 * Checks of arguments: room names, kinds, keys, values, notes, object names and version identifiers. An error message
 * starts with the key or the argument, and says what is wrong with it.
 */

import { LIMITS, codeOf, idOf } from "./forms.js"
import { exact } from "./json_text.js"

/**
 * @typedef {import("./forms.js").Name} Name
 * @typedef {import("./forms.js").VersionId} VersionId
 * @typedef {import("./forms.js").Value} Value
 */

const LEAST = -(2n ** 63n)
const MOST = 2n ** 63n - 1n
const WORD = /^[a-z0-9-]+$/
const ENCODER = new TextEncoder()
// A surrogate without its other half. UTF-8 cannot encode it.
const UNPAIRED_SURROGATE = /\p{Surrogate}/u

/** A short form of any value for an error message. */
function quote(value) {
  if (typeof value !== "string") return typeof value === "symbol" || Object(value) === value ? typeof value : `${value}`
  return JSON.stringify(value.length > LIMITS.roomBytes ? `${value.slice(0, LIMITS.roomBytes)}..` : value)
}

function asWord(what, word, most) {
  if (typeof word === "string" && word.length <= most && WORD.test(word)) return word
  throw new TypeError(`${what} ${quote(word)} isn't 1 to ${most} of a-z, 0-9 and -`)
}

/** @param {unknown} name @returns {string} @throws {TypeError} it is not 1 to 64 characters of a-z, 0-9 and `-` */
export const asRoomName = (name) => asWord("the room's name", name, LIMITS.roomBytes)

/** @param {unknown} kind @returns {string} @throws {TypeError} it is not 1 to 32 characters of a-z, 0-9 and `-` */
export const asKind = (kind) => asWord("the kind", kind, LIMITS.wordBytes)

/** @param {unknown} key @returns {string} @throws {TypeError} it is not 1 to 32 characters of a-z, 0-9 and `-` */
export const asKey = (key) => asWord("the key", key, LIMITS.wordBytes)

/**
 * Checks a value, and converts a number to the form that the library stores.
 * @param {unknown} value
 * @param {string} key the key that gets the value, for the error message
 * @returns {Value}
 * @throws {TypeError} the value is neither a number nor a string, or the string has an unpaired surrogate
 * @throws {RangeError} the number is not an integer, may be rounded, or exceeds 64 bits; or the string exceeds 256 bytes
 *   in UTF-8
 */
export function asValue(value, key) {
  if (typeof value === "string") return asText(value, key)
  if (typeof value !== "number" && typeof value !== "bigint") {
    throw new TypeError(`${key}: a value must be an integer or a string, not ${quote(value)}`)
  }
  if (typeof value === "number" && !Number.isInteger(value)) {
    throw new RangeError(`${key}: ${value} is not an integer`)
  }
  if (value < LEAST || value > MOST) {
    throw new RangeError(`${key}: ${value} is outside the 64-bit range from -2^63 to 2^63 - 1`)
  }
  if (typeof value === "number" && !Number.isSafeInteger(value)) {
    throw new RangeError(`${key}: ${value} may be rounded; use a BigInt beyond 2^53 - 1`)
  }
  return exact(value)
}

/**
 * Checks a note.
 * @param {unknown} text
 * @returns {string}
 * @throws {TypeError} it is not a string, or has an unpaired surrogate
 * @throws {RangeError} it exceeds 256 bytes in UTF-8
 */
export function asNote(text) {
  if (typeof text !== "string") throw new TypeError(`the note must be a string, not ${quote(text)}`)
  return asText(text, "the note")
}

function asText(text, key) {
  const index = text.search(UNPAIRED_SURROGATE)
  if (index >= 0) throw new TypeError(`${key}: the string has an unpaired surrogate at index ${index}`)
  const { length } = ENCODER.encode(text)
  if (length <= LIMITS.textBytes) return text
  throw new RangeError(`${key}: the string has ${length} bytes in UTF-8; the limit is ${LIMITS.textBytes}`)
}

/**
 * Checks the attributes of a new object or of a put.
 * @param {unknown} attributes an object, or pairs of a key and a value
 * @returns {[string, Value][]}
 * @throws {TypeError | RangeError} a key or a value is invalid, a key appears twice, or there are more than 16
 */
export function asAttributes(attributes) {
  const pairs = pairsOf(attributes)
  const read = pairs.map(([key, value]) => /** @type {[string, Value]} */ ([asKey(key), asValue(value, key)]))
  const keys = new Set()
  for (const [key] of read) {
    if (keys.has(key)) throw new TypeError(`${key}: the key appears twice`)
    keys.add(key)
  }
  if (read.length <= LIMITS.attributes) return read
  throw new RangeError(`${read.length} attributes; the limit is ${LIMITS.attributes}`)
}

function pairsOf(attributes) {
  if (Object(attributes) !== attributes) {
    throw new TypeError(`attributes must be an object, or pairs of a key and a value, not ${quote(attributes)}`)
  }
  if (!(Symbol.iterator in attributes)) return Object.entries(attributes)
  const pairs = [...attributes]
  const odd = pairs.find((pair) => !Array.isArray(pair) || pair.length !== 2)
  if (odd === undefined) return pairs
  throw new TypeError(`an attribute must be a pair of a key and a value, not ${quote(odd)}`)
}

/**
 * Checks the attributes of a put, which needs at least one.
 * @param {unknown} attributes @returns {[string, Value][]}
 * @throws {TypeError | RangeError} as `asAttributes`, or there is none
 */
export function asPairs(attributes) {
  const read = asAttributes(attributes)
  if (read.length === 0) throw new RangeError("a put needs at least one attribute")
  return read
}

/** @type {(name: any) => name is Name} */
const isName = (name) => Array.isArray(name) && name.length === 2 && name.every(Number.isInteger)

/**
 * Checks the name of an object.
 * @param {unknown} object
 * @returns {Name}
 * @throws {TypeError}
 */
export function asName(object) {
  if (!isName(object)) throw new TypeError("the object must be a name such as [1, 2]")
  const [site, number] = object
  return [site, number]
}

/**
 * Checks a base: a `Version` or its identifier.
 * @param {any} version
 * @returns {VersionId}
 * @throws {TypeError}
 */
export function asId(version) {
  const id = version?.id ?? version
  if (Array.isArray(id) && id.every(isName)) return idOf(id.map(codeOf))
  throw new TypeError("the version must be a Version or its identifier")
}

/**
 * Checks a state vector.
 * @param {unknown} seen
 * @returns {[number, number][]}
 * @throws {TypeError}
 */
export function asSeen(seen) {
  if (Array.isArray(seen) && seen.every(isName)) return seen.map(([site, count]) => [site, count])
  throw new TypeError("seen must be a state vector such as room.seen")
}
