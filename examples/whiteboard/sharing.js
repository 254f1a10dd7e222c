/** The buttons that begin a new drawing and share the link to this one. */

import { button, html, part } from "./elements.js"
import { linkTo, uniqueText } from "./links.js"

const SHARE = "Share"
const COPIED = "Link copied"
const COPIED_MILLISECONDS = 2000
const DENIED = "The browser does not let this page copy. Copy the link to this drawing yourself:"

export class Sharing {
  #roomName
  #timer = null

  /** @param {string} roomName */
  constructor(roomName) {
    this.#roomName = roomName
    part("new").addEventListener("click", () => location.assign(linkTo(uniqueText())))
    part("share").addEventListener("click", () => this.#share())
  }

  /** Copies the link. Where the clipboard is denied, it shows the link to copy by hand. */
  async #share() {
    const link = linkTo(this.#roomName)
    try {
      await navigator.clipboard.writeText(link)
      this.#sayCopied()
    } catch {
      // A page without TLS from another machine has no clipboard at all.
      this.#show(link)
    }
  }

  #sayCopied() {
    part("link").replaceChildren()
    part("share").textContent = COPIED
    clearTimeout(this.#timer)
    this.#timer = setTimeout(() => (part("share").textContent = SHARE), COPIED_MILLISECONDS)
  }

  #show(link) {
    const field = html("input", { readOnly: true, value: link })
    field.setAttribute("aria-label", "the link to this drawing")
    const close = () => part("link").replaceChildren()
    const actions = html("div", { className: "actions" }, button("Close", "close", close))
    part("link").replaceChildren(
      html("section", { className: "notice" }, html("p", { textContent: DENIED }), field, actions),
    )
    field.focus()
    field.select()
  }
}
