/**
 * Texts of objects. A value has at most 256 bytes of UTF-8, so a long text is cut into pieces under the keys `name`,
 * `name-2` and so on. One put sets all of them, also those that the text before had and this one has not. So two texts
 * that are written at once conflict as wholes.
 */

const VALUE_BYTES = 256
const PIECES = 16
const ENCODER = new TextEncoder()

/** The most bytes of UTF-8 that a text has. They fit into the pieces, however the letters lie at their borders. */
export const TEXT_BYTES = 4000

const keyOfPiece = (place) => (place === 0 ? "name" : `name-${place + 1}`)
export const TEXT_KEYS = Array.from({ length: PIECES }, (_, place) => keyOfPiece(place))
const [FIRST_KEY, ...LATER_KEYS] = TEXT_KEYS

export const bytesOf = (text) => ENCODER.encode(text).length

/** Reads the text from attributes. @param {Map<string, unknown>} attributes */
export function textIn(attributes) {
  let text = String(attributes.get(FIRST_KEY) ?? "")
  for (const key of LATER_KEYS) {
    const piece = attributes.get(key)
    if (typeof piece === "string") text += piece
  }
  return text
}

/**
 * The attributes that a text sets.
 * @param {string} text
 * @param {Map<string, unknown>} [before] the attributes of the version that it is written on
 */
export function textAttributes(text, before = new Map()) {
  const pieces = piecesOf(text, VALUE_BYTES)
  const isSet = (key, place) => place < pieces.length || (before.get(key) ?? "") !== ""
  return Object.fromEntries(TEXT_KEYS.filter(isSet).map((key, place) => [key, pieces[place] ?? ""]))
}

/** A text without control characters, which would be long in a message, but with its lines and tabs. */
export const plain = (text) => text.toWellFormed().replace(/[^\P{Cc}\n\t]/gu, "")

/** Cuts a text so that it has at most `TEXT_BYTES`. */
export const truncate = (text) => piecesOf(plain(text), TEXT_BYTES)[0]

/** Cuts a text between letters into pieces of so many bytes at most. An empty one has one piece. */
function piecesOf(text, most) {
  const pieces = [""]
  let left = most
  for (const letter of text) {
    const bytes = bytesOf(letter)
    if (bytes > left) {
      pieces.push("")
      left = most
    }
    pieces[pieces.length - 1] += letter
    left -= bytes
  }
  return pieces
}
