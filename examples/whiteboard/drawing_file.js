/**
 * The text of a drawing that is saved or copied:
 *
 *     ["grace-whiteboard",1,[[KIND,[VERSION,..]],..]]
 *
 * It has the objects from back to front as the record has them, each with its shown versions. A version is a list of
 * pairs of a key and a value. The text is JSON of lists, texts and integers, as the room's messages are. So no integer
 * is rounded.
 */

import { LIMITS, readText, writeText } from "../../clients/js/grace.js"
import { asKey, asKind, asValue } from "../../clients/js/arguments.js"
import { formOf } from "./copies.js"
import { withoutMakers } from "./maker_keys.js"

const MARK = "grace-whiteboard"
const EDITION = 1

/** @typedef {import("./copies.js").Form} Form */

/** What a text lacks that is no drawing. */
export class NoDrawing extends Error {}

/** All objects that are shown, each as the forms of its versions. @param {import("./board.js").Board} board */
export const objectsOf = (board) =>
  board.objects().map((name) => board.shown(name).map((version) => formOf(board, name, version)))

/** The text of objects. @param {Form[][]} objects */
export const textOf = (objects) => writeText([MARK, EDITION, objects.map((forms) =>
  [forms[0].kind, forms.map(({ attributes }) => withoutMakers(attributes))])])

/** Whether a text claims to be that of a drawing. */
export const isDrawingText = (text) => text.trimStart().startsWith(`["${MARK}"`)

/**
 * Reads objects from a text.
 * @param {string} text
 * @returns {Form[][]} of each object its versions, at least one
 * @throws {NoDrawing} nothing of it counts then
 */
export function objectsIn(text) {
  const [mark, edition, objects] = listIn(text)
  if (mark !== MARK || !Array.isArray(objects)) throw new NoDrawing("It is no drawing of a whiteboard.")
  if (edition !== EDITION) throw new NoDrawing("A newer whiteboard has saved it.")
  try {
    return objects.map(formsOf)
  } catch (fault) {
    throw new NoDrawing("It is damaged.", { cause: fault })
  }
}

function listIn(text) {
  try {
    const list = readText(text)
    return Array.isArray(list) ? list : []
  } catch {
    return []
  }
}

/** @returns {Form[]} @throws {TypeError | RangeError} */
function formsOf([kind, versions]) {
  if (versions.length === 0 || versions.length > LIMITS.versions) throw new RangeError(`${versions.length} versions`)
  return versions.map((pairs) => ({ kind: asKind(kind), attributes: attributesOf(pairs) }))
}

function attributesOf(pairs) {
  const attributes = new Map(pairs.map(([key, value]) => [asKey(key), asValue(value, key)]))
  if (attributes.size !== pairs.length || pairs.length > LIMITS.keys) throw new RangeError(`${pairs.length} attributes`)
  return attributes
}
