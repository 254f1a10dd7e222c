/** A field for a text of several lines. Enter makes a line. Ctrl+Enter and Escape end it, as leaving the field does. */

import { html } from "./elements.js"
import { say } from "./status.js"
import { TEXT_BYTES, bytesOf, plain, truncate } from "./texts.js"
import { CUT_TEXT, leftWords } from "./words.js"

// From this share of the most on, the field says how much is left.
const TOLD_SHARE = 0.8
const MOST_ROWS = 8

/**
 * @param {{ text: string, label: string, end: () => void, write?: () => void }} use the text at the beginning, what a
 *   screen reader says, and what is called at the end and at each change
 * @returns {{ field: HTMLTextAreaElement, left: HTMLElement }} the field, and the words about what is left
 */
export function textArea({ text, label, end, write = () => {} }) {
  const field = html("textarea", { value: text, autocomplete: "off" })
  const left = html("small", { className: "left" })
  field.setAttribute("aria-label", label)
  const tell = () => {
    const bytes = bytesOf(field.value)
    left.textContent = bytes >= TOLD_SHARE * TEXT_BYTES ? leftWords(TEXT_BYTES - bytes) : ""
    field.rows = Math.min(MOST_ROWS, field.value.split("\n").length)
  }
  field.addEventListener("input", () => {
    cut(field)
    tell()
    write()
  })
  field.addEventListener("blur", () => end())
  field.addEventListener("keydown", (event) => {
    const isEnd = event.key === "Enter" && (event.ctrlKey || event.metaKey)
    if (isEnd) event.preventDefault()
    if (isEnd) end()
    if (event.key === "Escape") field.blur()
  })
  tell()
  return { field, left }
}

/** Cuts what is too long, and says so. The cursor stays, unless it was in what is cut. */
function cut(field) {
  const { selectionEnd, value } = field
  const fit = truncate(value)
  if (fit === value) return
  field.value = fit
  field.setSelectionRange(selectionEnd, selectionEnd)
  if (fit !== plain(value)) say(CUT_TEXT)
}
