/**
 * Versions that combine independent choices. When some people move an object while others colour it, there is a version
 * for each place in each colour. Then one chooses the place and the colour on their own.
 */

import { button, html } from "./elements.js"
import { differingKeys, keysOf, linesOf } from "./words.js"

const wordOf = ({ attributes }, key) => `${typeof attributes.get(key)} ${attributes.get(key)}`
const textOf = (version, keys) => JSON.stringify(keys.map((key) => wordOf(version, key)))
const countOf = (versions, keys) => new Set(versions.map((version) => textOf(version, keys))).size

/**
 * The choices of which versions are all combinations: each as the keys that it sets together. Empty if there are no two
 * such choices.
 * @param {{ attributes: Map<string, unknown> }[]} versions
 * @returns {string[][]}
 */
export function choicesAmong(versions) {
  let choices = []
  for (const key of differingKeys(versions)) {
    const isTied = (keys) => keys.some((other) =>
      countOf(versions, [key, other]) < countOf(versions, [key]) * countOf(versions, [other]))
    const tied = choices.filter(isTied)
    choices = [...choices.filter((keys) => !tied.includes(keys)), [...tied.flat(), key]]
  }
  const combinations = choices.reduce((product, keys) => product * countOf(versions, keys), 1)
  return choices.length > 1 && combinations === versions.length ? choices : []
}

/**
 * A row of buttons for each choice. A button picks the version that differs from the picked one in this choice alone.
 * @param {{ versions: any[], picked: any, pick: (version: any) => void, point: (version: any) => void }} use the picked
 *   version or null, and what is called when the user picks or points at a version, or points at none
 */
export function combinationsOf({ versions, picked, pick, point }) {
  const choices = choicesAmong(versions)
  return choices.map((keys, place) => {
    const others = choices.filter((one) => one !== keys).flat()
    const base = picked ?? versions[0]
    const options = versions.filter((version) => textOf(version, others) === textOf(base, others))
    const label = linesWith(versions, base, keys).map(({ word }) => word).join(", ")
    const buttons = options.map((version, option) => {
      const one = button("", `choice-${place}-${option}`, () => pick(version))
      one.append(...wordsOf(versions, version, keys))
      one.setAttribute("aria-pressed", version === picked)
      one.addEventListener("pointerenter", () => point(version))
      one.addEventListener("pointerleave", () => point(null))
      return one
    })
    const row = html("div", { className: "actions choice combination", role: "group" },
      html("span", { textContent: label }), ...buttons)
    row.setAttribute("aria-label", label)
    return row
  })
}

const linesWith = (versions, { attributes }, keys) =>
  linesOf(attributes, keysOf(versions)).filter((line) => line.keys.some((key) => keys.includes(key)))

function wordsOf(versions, version, keys) {
  return linesWith(versions, version, keys).map(({ words, keys: [key] }) => {
    const shown = html("span", { textContent: words })
    if (key === "fill" || key === "outline") shown.style.setProperty("--colour", version.attributes.get(key))
    shown.className = key === "fill" || key === "outline" ? "swatch" : ""
    return shown
  })
}
