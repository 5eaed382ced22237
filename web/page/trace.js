// ---- a trace, as it is shown -----------------------------------------------------------
/** A text with what the worker found of it. */
class View {
  constructor(turn, text, lines, answer) {
    Object.assign(this, answer, { turn, text, lines, here: null })
    if (this.states) this.states = new States(this.states)
    this.first = this.read ? 1 + this.read.tasks + this.read.mutexes : 0
    this.reportLines = this.starts.length - 1
  }

  /** Returns a line of the report of what was judged, from 0 on. */
  reportLine(i) { return this.report.slice(this.starts[i], this.starts[i + 1] - 1) }

  /** Returns the reply to step k, or an empty text if the report is cut before. */
  reply(k) {
    const place = k && k <= this.last ? this.places[k] : -1
    return place >= 0 && this.steps[place] === k ? this.reportLine(place).replace(/^\d+ /, '') : ''
  }

  /** Returns the states that have step k, or null. */
  statesAt(k) { return [this.states, this.here].find(it => it?.has(k)) ?? null }
}

/** Returns what step k asks for, as its line says it. */
const asked = (view, k) => view.lines[view.first + k - 1].replace(/ = .*$/, '')

/** Returns the line that is invalid or rejected, or 0. */
const badLine = view => view.invalid || (view.rejected ? view.first + view.rejected : 0)

/** Says in words why a task executes at its priority. */
function reason(t, task) {
  const at = `task ${t} at ${task.prio}`
  if (task.why === 'waiter') return `${at}: task ${task.of} waits for mutex ${task.by}`
  if (task.why === 'ceiling') return `${at}: the ceiling of mutex ${task.by}`
  return `task ${t} at its base, ${task.prio}`
}

/** Returns for each boosted task why it is, and a sentence that says so. */
function boosts(state) {
  return state.tasks.flatMap((task, i) => {
    if (task.prio <= task.base) return []
    const cause = task.why === 'waiter'
      ? `task ${task.of} waits for mutex ${task.by}` : `the ceiling of mutex ${task.by}`
    const said = `Task ${i + 1} executes at ${task.prio} instead of ${task.base}: ${cause}.`
    return [{ why: task.why, said }]
  })
}

/** Lists the stretches of some steps over which a key stays the same. A null key has none. */
function stretches(from, past, key) {
  const found = []
  for (let k = from; k < past; k++) {
    const it = key(k), last = found[found.length - 1]
    if (it === null) continue
    if (last && last.key === it && last.to === k) last.to = k + 1
    else found.push({ key: it, from: k, to: k + 1 })
  }
  return found
}
