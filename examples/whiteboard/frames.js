/** Draws at most once in each animation frame. */
export class Frames {
  #draw
  #asked = 0

  /** @param {() => void} draw */
  constructor(draw) {
    this.#draw = draw
  }

  /** Requests a drawing in the next frame. */
  ask() {
    if (this.#asked === 0) this.#asked = requestAnimationFrame(() => this.now())
  }

  /** Draws a requested frame now. */
  now() {
    if (this.#asked === 0) return
    cancelAnimationFrame(this.#asked)
    this.#asked = 0
    this.#draw()
  }
}
