/** How large the user's pointer is, and how much motion the user wants, as the browser says. */

const says = (question) => globalThis.matchMedia?.(question).matches ?? false

/** Whether the user points with a finger. */
export const isCoarse = () => says("(pointer: coarse)")

/** Whether the user wants less motion. */
export const isStill = () => says("(prefers-reduced-motion: reduce)")

/** The least side of what a finger hits, in pixels. */
export const FINGER = 44
