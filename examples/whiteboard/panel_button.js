/** The button that shows the panel, and hides it, where there is no space for it beside the drawing. */

import { part } from "./elements.js"

export class PanelButton {
  constructor() {
    part("details").addEventListener("click", () => this.#show(!document.body.classList.contains("with-panel")))
  }

  /** The button says what the panel is about. */
  draw() {
    const words = part("panel").querySelector("h2").textContent
    if (part("details").textContent !== words) part("details").textContent = words
  }

  #show(isShown) {
    document.body.classList.toggle("with-panel", isShown)
    part("details").setAttribute("aria-expanded", isShown)
  }
}
