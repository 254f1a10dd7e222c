/**
 * JSON texts of lists, strings and integers: the messages contain nothing else. An integer that a `Number` cannot hold
 * exactly becomes a `BigInt`, so that no value is rounded.
 */

const SPACES = /[ \t\n\r]*/
const MARK = /[[\],]/
const DIGITS = /0|-?[1-9][0-9]*/
// A string with any escape sequence. `JSON.parse` checks the escapes.
const QUOTED = /"[^"\\\u0000-\u001f]*(?:\\[^\u0000-\u001f][^"\\\u0000-\u001f]*)*"/
const TOKEN = new RegExp(
  `${SPACES.source}(?:(${MARK.source})|(${DIGITS.source})(?![0-9.eE])|(${QUOTED.source}))`, "y",
)
const SPACE = new RegExp(SPACES.source, "y")
const DEEPEST = 127
const QUOTED_ALL = /"(?:[^"\\]|\\.)*"/g
// Outside of strings: what a message cannot have, and numbers that may be no exact `Number`.
const UNUSUAL = /[^[\],0-9 \t\n\r-]|-0|[0-9]{16}/

/**
 * Converts an integer to a `Number` if that is exact, otherwise to a `BigInt`. So equal integers are equal by `===`.
 * @param {number | bigint | string} number an integer, or its digits
 * @returns {number | bigint}
 */
export function exact(number) {
  const rounded = Number(number)
  return Number.isSafeInteger(rounded) ? rounded + 0 : BigInt(number)
}

/** Reads one JSON text from start to end. */
class Reader {
  constructor(text) {
    this.text = text
    this.place = 0
  }

  token() {
    TOKEN.lastIndex = this.place
    const found = TOKEN.exec(this.text)
    if (found === null) throw new SyntaxError(`no integer, string or list at ${this.place}`)
    this.place = TOKEN.lastIndex
    return found
  }

  /**
   * The value that starts with this token, inside `depth` lists.
   * @param {RegExpExecArray} token @param {number} depth
   * @returns {any}
   */
  value([, mark, digits, quoted], depth) {
    if (digits !== undefined) return exact(digits)
    if (quoted !== undefined) return JSON.parse(quoted)
    if (mark !== "[" || depth === DEEPEST) throw new SyntaxError(`invalid value before ${this.place}`)
    return this.list(depth + 1)
  }

  /** The elements of a list whose opening bracket has been read. */
  list(depth) {
    const elements = []
    let token = this.token()
    if (token[1] === "]") return elements
    for (;;) {
      elements.push(this.value(token, depth))
      const [, mark] = this.token()
      if (mark === "]") return elements
      if (mark !== ",") throw new SyntaxError(`missing comma before ${this.place}`)
      token = this.token()
    }
  }

  end() {
    SPACE.lastIndex = this.place
    SPACE.exec(this.text)
    if (SPACE.lastIndex !== this.text.length) throw new SyntaxError(`more than one value at ${this.place}`)
  }
}

/** Whether `JSON.parse` reads a text as `readText` does, unless its lists are too deep. It is several times as fast. */
const isUsual = (text) => !UNUSUAL.test(text.replace(QUOTED_ALL, ""))

/** Whether a value is within so many lists at most. */
const isFlat = (value, depth = DEEPEST) =>
  !Array.isArray(value) || (depth > 0 && value.every((element) => isFlat(element, depth - 1)))

/**
 * Parses a JSON text that consists of lists, strings and integers.
 * @param {string} text
 * @returns {any} an integer is a `Number` from -(2^53 - 1) to 2^53 - 1, and a `BigInt` beyond
 * @throws {SyntaxError} the text is not JSON, or has an object, a fraction, an exponent, a boolean or null
 */
export function readText(text) {
  if (isUsual(text)) {
    const value = JSON.parse(text)
    if (isFlat(value)) return value
  }
  const reader = new Reader(text)
  const value = reader.value(reader.token(), 0)
  reader.end()
  return value
}

/**
 * Writes a value as JSON text without white space.
 * @param {any} value a string, an integer (`Number` or `BigInt`), or a list of such values
 * @returns {string}
 * @throws {TypeError} the value contains something else
 * @throws {RangeError} the value contains a `Number` that is not an exact integer
 */
export function writeText(value) {
  if (typeof value === "string") return JSON.stringify(value)
  if (typeof value === "bigint") return value.toString()
  if (Array.isArray(value)) return `[${value.map(writeText).join(",")}]`
  if (typeof value !== "number") throw new TypeError(`a message cannot contain a ${typeof value}`)
  if (!Number.isSafeInteger(value)) throw new RangeError(`${value} is not an exact integer; use a BigInt`)
  return (value + 0).toString()
}
