/** The parts of the messages: names, values, operations, refusal words, and the limits. */

import { writeText } from "./json_text.js"

/**
 * @typedef {[number, number]} Name site and number of an operation; an object has the name of its creation
 * @typedef {Name[]} VersionId sorted in ascending order
 * @typedef {number | bigint | string} Value a string, or a 64-bit integer: a `Number` if that is exact, otherwise a
 *   `BigInt`
 * @typedef {{ word: "new" | "put" | "drop", name: Name, seen: [number, number][], object: Name, kind?: string,
 *   version?: VersionId, attributes?: [string, Value][] }} Operation `seen` is the state vector. A creation has `kind`,
 *   a put or a drop has `version`, a creation or a put has `attributes`
 */

/** The largest number or size of each, as the server enforces it. */
export const LIMITS = Object.freeze({
  sites: 256, entries: 16384, objects: 8192, changes: 1024, keys: 64, versions: 32, attributes: 16, messageBytes: 16384,
  textBytes: 256, wordBytes: 32, roomBytes: 64,
})

const ENCODER = new TextEncoder()

/** One sentence for people for each refusal. The server's words come first, in the order of their codes from 1. */
const WORDS = {
  "bad-message": "The server could not read a message.",
  "not-joined": "You are not in a room yet.",
  "already-joined": "You are already in a room.",
  "no-such-room": "The server has no room with this name.",
  "room-full": "The room is full, so nobody new can join it.",
  "record-full": "The room's record is full, so nothing can be changed any more.",
  "wrong-seq": "The change has the wrong number.",
  "own-count": "The change miscounts your own earlier changes.",
  "ahead": "The change builds on changes that the server does not have.",
  "not-closed": "The change leaves out changes that it depends on.",
  "no-such-object": "This object does not exist.",
  "no-such-version": "This version does not exist any more, so please choose again.",
  "object-full": "This object has reached its limit of changes.",
  "too-many-keys": "This object has reached its limit of attributes.",
  "too-many-versions": "This object has reached its limit of versions.",
  "too-many-objects": "The room has reached its limit of objects.",
  "too-far": "The room has fewer entries than you asked for.",
  "gone": "Somebody deleted this version, so please choose another one.",
  "no-such-site": "The room does not know your site.",
  "site-in-use": "Another connection is using your site.",
  "not-served": "The server cannot serve this room now.",
  "renewed": "This drawing has ended and goes on in another room.",
  "closed": "The room was closed before the server accepted the change.",
  "withdrawn": "The server refused an earlier change to this object.",
  "another-room": "The room was started again without this change.",
  "too-long": "The change is too long for one message.",
  "read-only": "The room takes nobody new, so you can look at it, but not change it.",
}
const CODES = Object.keys(WORDS).slice(0, 22)

/** An error of the library. Each error that a room reports, or that its promises reject with, is one of these. */
export class GraceError extends Error {
  name = "GraceError"
}

/**
 * The server or this library refused a change or a join, which then has no effect. `message` is a sentence for people.
 */
export class Refused extends GraceError {
  /** @param {string} word the server's word, or the library's own: `closed`, `withdrawn`, `another-room`, `too-long`,
   *   `read-only` */
  constructor(word) {
    super(WORDS[word] ?? `The server refused the request: ${word}.`)
    this.name = "Refused"
    /** The word of the refusal, as the parameter. */
    this.word = word
    /** The server's code, from 1 to 22; 0 for the library's own words. */
    this.code = CODES.indexOf(word) + 1
  }
}

/** The reply to a join or a back of a room that goes on in another one. */
export class RenewedAs extends GraceError {
  name = "RenewedAs"

  /** @param {string} room the newest room of the drawing */
  constructor(room) {
    super(`The drawing goes on in ${room}.`)
    this.room = room
  }
}

/** Why the answer to a handshake ends a room, by its status. */
export const DENIED = Object.freeze({
  401: "The server needs a user and a password that it knows",
  403: "The server does not let you in",
  404: "The server has no room at this address",
})

/**
 * The server, or a proxy in front of it, answered the handshake by 401, 403 or 404. Another attempt would get the same
 * answer. `message` is a sentence for people.
 */
export class Denied extends GraceError {
  name = "Denied"

  /**
   * @param {401 | 403 | 404} status of the answer
   * @param {string} reason the text behind the status, such as `Unauthorized`
   */
  constructor(status, reason) {
    super(`${DENIED[status]}: ${`${status} ${reason}`.trimEnd()}.`)
    this.status = status
    this.reason = reason
  }
}

/** The server sent something that the protocol does not allow. */
export class ProtocolFault extends GraceError {
  name = "ProtocolFault"
}

/**
 * A name as one number. Numbers sort like names.
 * @param {Name} name
 */
export const codeOf = ([site, number]) => site * 65536 + number

/**
 * The inverse of `codeOf`.
 * @param {number} code
 * @returns {Name}
 */
export const nameOf = (code) => [Math.floor(code / 65536), code % 65536]

/**
 * Compares identifiers as lists of names; a prefix sorts first.
 * @param {VersionId} one
 * @param {VersionId} other
 */
export function compareIds(one, other) {
  for (let place = 0; place < one.length && place < other.length; place++) {
    const difference = codeOf(one[place]) - codeOf(other[place])
    if (difference !== 0) return difference
  }
  return one.length - other.length
}

/**
 * Whether two identifiers are equal.
 * @param {VersionId} one
 * @param {VersionId} other
 */
export const isSameId = (one, other) => compareIds(one, other) === 0

/**
 * The names with these codes, sorted in ascending order.
 * @param {Iterable<number>} codes
 * @returns {VersionId}
 */
export const idOf = (codes) => [...codes].sort((one, other) => one - other).map(nameOf)

/**
 * Reads the operation from an entry of a record. The old word `set`, for one attribute, gives a put.
 * @param {any[]} entry
 * @returns {Operation | null} null if the entry is a join or the end of the record
 * @throws {ProtocolFault} the entry is malformed
 */
export function operationOf(entry) {
  const [word, name, seen] = entry
  if ((word === "join" || word === "next") && entry.length === 2) return null
  if (word === "new" && entry.length === 5) {
    return { word, name, seen, kind: entry[3], attributes: entry[4], object: name }
  }
  const [, , , object, version, ...rest] = entry
  if (word === "put" && rest.length === 1) return { word, name, seen, object, version, attributes: rest[0] }
  if (word === "set" && rest.length === 2) {
    const [key, value] = rest
    return { word: "put", name, seen, object, version, attributes: [[key, value]] }
  }
  if (word === "drop" && entry.length === 5) return { word, name, seen, object, version }
  throw new ProtocolFault(`invalid entry: ${writeText(entry).slice(0, 200)}`)
}

/**
 * The entry that the server appends to the record for this operation.
 * @param {Operation} operation
 */
export function entryOf({ word, name, seen, object, kind, version, attributes }) {
  if (word === "new") return [word, name, seen, kind, attributes]
  return word === "put" ? [word, name, seen, object, version, attributes] : [word, name, seen, object, version]
}

/**
 * The request that asks the server for this operation.
 * @param {Operation} operation @returns {string}
 * @throws {Refused} `too-long`: the request exceeds `LIMITS.messageBytes`
 */
export function requestOf(operation) {
  const [word, [, number], ...rest] = entryOf(operation)
  const text = writeText([word, number, ...rest])
  if (ENCODER.encode(text).length > LIMITS.messageBytes) throw new Refused("too-long")
  return text
}
