/** The name that the user has told, and whether it goes into drawings, kept in the browser for all of them. */

import { fittingName } from "./notes.js"

const KEY = "whiteboard-name"
const ALLOWED_KEY = "whiteboard-name-with-changes"
const ALLOWED = "yes"

/** The name; empty if the user tells none, null if the user was not asked yet. */
export function storedName() {
  try {
    const text = localStorage.getItem(KEY)
    return text === null ? null : fittingName(text)
  } catch {
    // The browser denies a storage. The page asks each time.
    return null
  }
}

/** Stores a name, which may be empty. */
export function storeName(name) {
  try {
    localStorage.setItem(KEY, name)
  } catch {
    // It lasts as long as the page.
  }
}

/** Whether the user allows that the name goes with the user's changes. */
export function isNameAllowed() {
  try {
    return localStorage.getItem(ALLOWED_KEY) === ALLOWED
  } catch {
    return false
  }
}

/** Stores whether the user allows that. */
export function allowName(isAllowed) {
  try {
    if (isAllowed) localStorage.setItem(ALLOWED_KEY, ALLOWED)
    else localStorage.removeItem(ALLOWED_KEY)
  } catch {
    // It lasts as long as the page.
  }
}
