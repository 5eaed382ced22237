// ---- the graph: each task next to the mutex that it waits for, each mutex next to its owner ----
const arrow = (id, ink) => `<marker id="${id}" viewBox="0 0 8 8" refX="2" refY="4" markerWidth="8"
  markerHeight="8" markerUnits="userSpaceOnUse" orient="auto">
  <path d="M0 .5L8 4L0 7.5z" style="fill:${ink}"/></marker>`
const inkOf = why => INKS[why] ? `var(${INKS[why]})` : 'var(--base)'

/** Where the tasks and mutexes are. A chain goes to the right, or down on a narrow page. */
class Layout {
  constructor(state, { width, narrow }) {
    this.state = state
    this.broad = width
    this.narrow = narrow
    this.task = narrow ? { w: 94, h: 46 } : { w: 116, h: 46 }
    this.mutex = narrow ? { w: 80, h: 40 } : { w: 88, h: 40 }
    this.owned = state.tasks.map((_, i) =>
      state.mutexes.flatMap((m, j) => m.owner === i + 1 ? [j + 1] : []))
    this.gap = narrow ? 26 : this.gapBetween()
    this.along = narrow ? 'h' : 'w'
    this.next = narrow ? this.task.w + 10 : this.task.h + 12
    this.free = (narrow ? this.task.w : this.task.h) / 2 + 1
    this.nodes = []
    this.edges = []
    this.placeChains()
    this.placeOthers()
  }

  /** Returns how far a chain's parts can be from each other so that the longest chain fits. */
  gapBetween() {
    const depth = Math.max(0, ...this.state.tasks.map((_, i) => this.depth(i + 1)))
    const mutexes = depth || (this.state.mutexes.some(m => m.owner) ? 1 : 0)
    const rest = this.broad - (depth + 1) * this.task.w - mutexes * this.mutex.w
    return Math.max(18, Math.min(48, Math.floor(rest / Math.max(1, 2 * depth || 1))))
  }

  /** Returns how many owners a task waits for, one for the other. */
  depth(t) {
    const m = this.state.tasks[t - 1].waits, owner = m ? this.state.mutexes[m - 1].owner : 0
    return owner ? 1 + this.depth(owner) : 0
  }

  /** Returns why the owner of a mutex is boosted, if it is by it, or by this waiter for it. */
  boostBy(m, waiter) {
    const owner = this.state.mutexes[m - 1].owner, it = owner && this.state.tasks[owner - 1]
    if (!it || it.by !== m) return ''
    return (it.why === 'ceiling' ? !waiter : !waiter || it.of === waiter) ? it.why : ''
  }

  point(u, v) { return this.narrow ? { x: v, y: u } : { x: u, y: v } }

  put(node, u, v, { w, h }) {
    const at = this.narrow ? { x: v - w / 2, y: u } : { x: u, y: v - h / 2 }
    this.nodes.push({ ...node, ...at })
  }

  /** Returns the middle of these places, or the next free one. */
  middle(places) {
    if (places.length) return (places[0] + places[places.length - 1]) / 2
    this.free += this.next
    return this.free - this.next
  }

  /** Places a task with all that it owns, and returns its place across the chain. */
  placeTask(t, u) {
    const end = u + this.task[this.along]
    const places = this.owned[t - 1].map(m => this.placeMutex(m, end + this.gap))
    const v = this.middle(places)
    this.put({ t }, u, v, this.task)
    this.owned[t - 1].forEach((m, i) => this.edges.push({
      from: this.point(end + this.gap, places[i]), to: this.point(end, v),
      why: this.boostBy(m, 0) }))
    return v
  }

  /** Places a mutex with its queue. */
  placeMutex(m, u) {
    const queue = this.state.mutexes[m - 1].queue, end = u + this.mutex[this.along]
    const places = queue.map(t => this.placeTask(t, end + this.gap)), v = this.middle(places)
    this.put({ m }, u, v, this.mutex)
    queue.forEach((t, i) => this.edges.push({
      from: this.point(end + this.gap, places[i]), to: this.point(end, v), why: this.boostBy(m, t),
      waits: true, nth: queue.length > 1 ? i + 1 : 0 }))
    return v
  }

  placeChains() {
    this.state.tasks.forEach((task, i) => {
      if (task.waits || !this.owned[i].length) return
      this.placeTask(i + 1, 0)
      this.free += 8
    })
  }

  /** Places tasks that own nothing and don't wait, and free mutexes, in rows. */
  placeOthers() {
    const { tasks, mutexes } = this.state, { w, h } = this.task
    const isIdle = (task, i) => !task.waits && !this.owned[i].length
    const idle = tasks.flatMap((task, i) => isIdle(task, i) ? [{ t: i + 1 }] : [])
    const free = mutexes.flatMap((mutex, i) => mutex.owner ? [] : [{ m: i + 1 }])
    const used = Math.max(0, ...this.nodes.map(it => it.x + w))
    const deep = Math.max(0, ...this.nodes.map(it => it.y + h))
    const beside = this.nodes.length && !this.narrow && used + 60 + w < this.broad
    const from = beside ? used + 60 : 0
    let x = from, y = beside || !this.nodes.length ? 1 : deep + 18
    for (const it of [...idle, ...free]) {
      if (x > from && x + w > this.broad) { x = from; y += h + 12 }
      this.nodes.push({ ...it, x, y: it.m ? y + (h - this.mutex.h) / 2 : y, idle: true })
      x += w + 14
    }
  }
}

/** Draws an arrow from a waiter to a mutex, or from a mutex to its owner. */
function drawEdge({ from: a, to: b, why, waits, nth }, narrow) {
  const bend = narrow
    ? `${a.x} ${(a.y + b.y) / 2} ${b.x} ${(a.y + b.y) / 2} ${b.x} ${b.y + 6}`
    : `${(a.x + b.x) / 2} ${a.y} ${(a.x + b.x) / 2} ${b.y} ${b.x + 6} ${b.y}`
  const dashes = waits ? ';stroke-dasharray:4 3' : ''
  const style = `fill:none;stroke:${inkOf(why)};stroke-width:${why ? 2 : 1.4}${dashes}`
  const end = `marker-end="url(#${why || 'plain'})"`
  const path = `<path d="M${a.x} ${a.y}C${bend}" ${end} style="${style}"/>`
  const place = () => words(a.x - 5, a.y - 5, 10.5, 'fill:var(--mute)', nth, 'text-anchor="end"')
  return nth ? [path, place()] : [path]
}

function drawTask({ t, x, y }, task, layout) {
  const { w, h } = layout.task, up = task.prio > task.base
  const ink = up ? inkOf(task.why) : 'var(--ink)'
  const box = `fill:var(--panel);stroke:${up ? ink : 'var(--base)'};stroke-width:${up ? 1.75 : 1.2}`
  const base = task.waits && !layout.narrow ? `waits, base ${task.base}` : `base ${task.base}`
  const end = 'text-anchor="end"', mark = up ? MARKS[task.why] : ''
  return `<g data-tip="${reason(t, task)}">`
    + rect(x + .75, y + .75, w - 1.5, h - 1.5, box, 'rx="7"')
    + words(x + 11, y + 20, 13, 'fill:var(--ink);font-weight:600', `task ${t}`)
    + words(x + 11, y + 36, 11, 'fill:var(--soft)', base)
    + words(x + w - 9, y + 20, 16, `fill:${ink};font-weight:650`, task.prio, end)
    + words(x + w - 9, y + 36, 11, `fill:${ink}`, mark, end) + '</g>'
}

/** Says in words who owns a mutex. */
function ownership(m, mutex) {
  const kind = mutex.kind === 'protect' ? `protect ${mutex.ceiling}` : mutex.kind
  const times = mutex.count > 1 ? `, locked ${mutex.count} times` : ''
  return `mutex ${m}, ${kind}: ${mutex.owner ? `task ${mutex.owner} owns it${times}` : 'free'}`
}

function drawMutex({ m, x, y }, mutex, { mutex: { w, h } }) {
  const times = mutex.count > 1 ? ` ×${mutex.count}` : ''
  const short = { protect: `protect ${mutex.ceiling}`, 'inherit recursive': `recursive${times}` }
  const kind = short[mutex.kind] ?? mutex.kind
  const box = `fill:${mutex.owner ? hue(m) : 'var(--bg)'};stroke:${hue(m)};stroke-width:1.3`
  const ink = mutex.owner ? 'var(--on-m)' : hue(m), middle = 'text-anchor="middle"'
  const soft = mutex.owner ? ink : 'var(--soft)'
  return `<g data-tip="${ownership(m, mutex)}">`
    + rect(x + .75, y + .75, w - 1.5, h - 1.5, box, `rx="${h / 2}"`)
    + words(x + w / 2, y + 18, 12.5, `font-weight:600;fill:${ink}`, `mutex ${m}`, middle)
    + words(x + w / 2, y + 31, 10.5, `fill:${soft}`, kind, middle) + '</g>'
}

/** Returns a picture of who owns and who waits. */
function drawGraph(state, room) {
  const layout = new Layout(state, room), { w, h } = layout.task
  const width = Math.max(room.width, ...layout.nodes.map(it => it.x + w))
  const height = Math.max(0, ...layout.nodes.map(it => it.y + h)) + 6
  const edges = layout.edges.sort((a, b) => (a.why > b.why) - (a.why < b.why))
  const arrows = () => ['plain', 'waiter', 'ceiling'].map(why => arrow(why, inkOf(why)))
  const boxes = () => layout.nodes.map(it => it.t
    ? drawTask(it, state.tasks[it.t - 1], layout) : drawMutex(it, state.mutexes[it.m - 1], layout))
  const lines = () => edges.flatMap(it => drawEdge(it, room.narrow))
  const parts = [arrows, lines, boxes].map((texts, of) => ({ of, texts }))
  return { width, height, parts }
}
