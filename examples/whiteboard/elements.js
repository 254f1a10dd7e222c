/** Helpers that create or find elements of the page. */

const SVG = "http://www.w3.org/2000/svg"

/** Creates an SVG element with attributes and children. */
export function svg(word, attributes = {}, ...children) {
  const element = document.createElementNS(SVG, word)
  for (const [key, value] of Object.entries(attributes)) element.setAttribute(key, value)
  element.append(...children)
  return element
}

/** Creates an HTML element with properties and children. */
export function html(word, properties = {}, ...children) {
  const { dataset = {}, ...rest } = properties
  const element = Object.assign(document.createElement(word), rest)
  Object.assign(element.dataset, dataset)
  element.append(...children)
  return element
}

/** Sets an attribute if it has another value: the browser would lay out all that is inside. */
export function setAttribute(element, key, value) {
  if (element.getAttribute(key) !== value) element.setAttribute(key, value)
}

/** The element of the page with this id. */
export const part = (id) => document.getElementById(id)

/** Creates a button. The word `focus` identifies it, so that it keeps the focus when it is drawn again. */
export const button = (textContent, focus, onclick) =>
  html("button", { type: "button", textContent, onclick, dataset: { focus } })

/** Takes the focus from what has it. */
export function leaveFocus() {
  const { activeElement } = document
  if (activeElement instanceof HTMLElement || activeElement instanceof SVGElement) activeElement.blur()
}
