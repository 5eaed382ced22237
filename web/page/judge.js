// ---- the worker, as the page asks it ---------------------------------------------------
const PATIENCE = 200 // milliseconds that a newer text waits for the answers about an older one

/** Asks the worker. The last text wins: what was asked about an older one has no answer. */
class Judge {
  constructor(module) {
    this.module = module
    this.address = URL.createObjectURL(new Blob([PIM_WORKER], { type: 'text/javascript' }))
    this.texts = 0
    this.asked = 0
    this.start()
  }

  start() {
    this.worker?.terminate()
    // What an ended worker was asked is about an older text.
    for (const { done } of this.waiting?.values() ?? []) done(null)
    this.waiting = new Map()
    this.worker = new Worker(this.address)
    this.worker.onmessage = ({ data }) => this.answered(data)
    this.worker.onerror = ({ message }) => {
      for (const id of [...this.waiting.keys()]) this.answered({ id, failed: message })
    }
  }

  answered({ id, result, failed }) {
    const call = this.waiting.get(id)
    this.waiting.delete(id)
    if (failed) call.failed(Error(failed))
    else call.done(result)
    if (!this.waiting.size) this.whenFree?.()
  }

  send(call, given) {
    const id = ++this.asked
    this.worker.postMessage({ id, call, given, module: this.module })
    return new Promise((done, failed) => this.waiting.set(id, { done, failed }))
  }

  /** Waits until the worker is free. One that isn't soon is ended, and another one starts. */
  free() {
    this.ending ??= new Promise(done => {
      const late = setTimeout(() => { this.start(); this.whenFree() }, PATIENCE)
      this.whenFree = () => {
        clearTimeout(late)
        this.ending = this.whenFree = null
        done()
      }
    })
    return this.ending
  }

  /** Returns whether no newer text than that of a view has come. */
  isLast(view) { return view.turn === this.texts }

  /** Returns the view of a text, or null if a newer one has come. */
  async look(text, lines) {
    const turn = ++this.texts
    if (this.waiting.size) await this.free()
    if (turn !== this.texts) return null
    const answer = await this.send('look', [text, turn])
    return turn === this.texts ? new View(turn, text, lines, answer) : null
  }

  /** Asks about the text of a view. Returns null if a newer one has come. */
  async ask(view, call, ...given) {
    if (!this.isLast(view)) return null
    const answer = await this.send(call, given)
    return this.isLast(view) ? answer : null
  }
}
