// ---- a lane for each task: its priority over the steps, what it owns and what it waits for ----
const MARKS = { waiter: '▲', ceiling: '◆', refused: '×' }
const INKS = { waiter: '--boost', ceiling: '--ceil' }
const BAR = 13, TOP = 20
const DEEPEST = 50_000 // pixels, more than the lanes of 256 tasks
const MOST_UNFOLDED = 16 // lanes, of which none is folded
const MARKED = 40 // pixels, which a number and its mark take
const LETTER = 7  // pixels, at most, of a character of a number
const DOT = 'fill:var(--line);stroke:var(--bg);stroke-width:1.5'
const CROSS = 'stroke:var(--bad);stroke-width:2'
const SVG = 'xmlns="http://www.w3.org/2000/svg" aria-hidden="true"'

const escape = text => text.replace(/[&<>"]/g, c => `&#${c.charCodeAt(0)};`)
const hue = m => `var(--m${(m - 1) % 6 + 1})`
const rect = (x, y, w, h, style, more = '') =>
  `<rect x="${x}" y="${y}" width="${w}" height="${h}" style="${style}" ${more}/>`
const rule = (x, to, y, style) =>
  `<line x1="${x}" x2="${to}" y1="${y}" y2="${y}" style="${style}"/>`
const words = (x, y, size, style, text, more = '') =>
  `<text x="${x}" y="${y}" font-size="${size}" style="${style}" ${more}>`
  + `${escape(String(text))}</text>`

/** Returns the bars of a task that are seen between two steps. */
function barsOf({ numbers, begins }, t, first, past) {
  const found = []
  for (let i = begins[t] * BAR_PARTS; i < begins[t + 1] * BAR_PARTS; i += BAR_PARTS) {
    if (numbers[i + 3] >= past || numbers[i + 4] <= first) continue
    const [owns, , m, from, to, row] = numbers.subarray(i, i + BAR_PARTS)
    found.push({ owns: owns === 1, m, from, to, row })
  }
  return found
}

/** Returns how wide the number of the last step is, at most. */
const wideOf = view => 7 * String(view.last).length + 4

/** Where everything is: the columns of the steps, and the lanes of the tasks. */
class Plan {
  constructor(view, { width, height, narrow, unfolded = false, often = null }) {
    this.view = view
    this.count = view.last + 1
    this.side = narrow ? 62 : 84
    const least = narrow ? 22 : 26
    this.col = Math.max(least, Math.min(84, Math.floor((width - this.side - 6) / this.count)))
    this.width = this.count * this.col + Math.max(4, (wideOf(view) - this.col) / 2)
    this.often = often ?? Math.max(80, width - this.side - MARKED)
    this.whole = { first: 0, past: this.count, top: 0, bottom: Infinity }
    this.seen = this.whole
    const { rows } = view.bars, tasks = rows.length - 1
    const folds = tasks > MOST_UNFOLDED && !unfolded
    const all = Array.from({ length: tasks }, (_, i) => i)
    const shown = all.filter(i => !folds || view.named[i + 1])
    this.folded = tasks - shown.length
    this.isTall = shown.length > MOST_UNFOLDED
    this.place(shown, rows, narrow, height)
  }

  /** Places the lanes below each other. */
  place(shown, rows, narrow, height) {
    const below = shown.map(i => Math.max(1, rows[i + 1]) * (BAR + 2) + 12)
    const spare = height - TOP - below.reduce((sum, n) => sum + n, 0)
    const each = Math.floor(spare / Math.max(1, shown.length))
    this.tall = narrow ? 30 : Math.max(32, Math.min(60, each))
    this.height = TOP
    this.lanes = shown.map((i, nth) => {
      const y = this.height, deep = this.tall + below[nth]
      this.height += deep
      return { i, y, deep, floor: 8 + this.tall }
    })
  }

  /** Draws what is seen, a third more on each side, and a half more above and below. */
  see({ left, top, wide, deep }) {
    this.seen = {
      first: Math.max(0, Math.floor((left - wide / 3) / this.col)),
      past: Math.min(this.count, Math.ceil((left + 4 / 3 * wide) / this.col)),
      top: top - deep / 2, bottom: top + 1.5 * deep,
    }
  }

  x(k) { return k * this.col }
  isSeen(lane) { return lane.y + lane.deep > this.seen.top && lane.y < this.seen.bottom }
  stretches(key) { return stretches(this.seen.first, this.seen.past, key) }

  /** Returns how far below the top of its lane a priority is. */
  level(lane, prio) { return lane.floor - this.tall * prio / 99 }

  /** Returns where a number of a priority is: above its line, or below where there is no room. */
  numberAt(lane, prio) {
    const y = this.level(lane, prio)
    return y - 4 < 9 ? y + 13 : y - 4
  }
  task(lane, k) { return this.states.task(k, lane.i) }
}

const boostKey = it => it.prio > it.base ? [it.prio, it.base, it.why, it.of, it.by].join(' ') : null

/** Draws level lines, each from a place to a place at a height, as one element. */
const levels = (lines, style) => !lines.length ? []
  : [`<path d="${lines.map(([x, to, y]) => `M${x} ${y}H${to}`).join('')}" style="fill:none;${style}"/>`]

/** Draws the area between the base and the priority of a boosted task. */
function boostAreas(plan, lane) {
  const runs = plan.stretches(k => boostKey(plan.task(lane, k)))
  const drawn = runs.map(({ from, to }) => {
    const it = plan.task(lane, from), [x, end] = [plan.x(from), plan.x(to)]
    const [top, bottom] = [it.prio, it.base].map(prio => plan.level(lane, prio))
    const more = `class="boost" data-tip="${reason(lane.i + 1, it)}"`
    const area = rect(x, top, end - x, bottom - top, `fill:var(${INKS[it.why]}-fill)`, more)
    return { area, base: [x, end, bottom] }
  })
  const bases = drawn.map(({ base }) => base)
  return [...drawn.map(({ area }) => area), ...levels(bases, 'stroke:var(--base);stroke-dasharray:2 3')]
}

/** Returns where the number of a boost is: where it begins, and so often that one is always seen. */
function placesOf(plan, { from, to }) {
  const begin = plan.x(from), end = plan.x(to) - MARKED, places = [begin]
  for (let x = Math.ceil((begin + MARKED) / plan.often) * plan.often; x < end; x += plan.often) {
    places.push(x)
  }
  return places
}

/** Returns what boosts a task, a waiter or a ceiling, or nothing. */
const boostOf = it => it.prio > it.base ? it.why : ''

/** Returns what is the same over a stretch of a lane that has one number. */
const runKey = it => `${it.prio} ${boostOf(it)}`

/** Lists the stretches over which a lane's priority and what boosts it are the same. */
function runsOf(plan, lane) {
  return plan.stretches(k => runKey(plan.task(lane, k))).map(({ from, to }) => {
    const it = plan.task(lane, from)
    return { from, to, prio: it.prio, why: boostOf(it), y: plan.level(lane, it.prio) }
  })
}

/** Draws the priority as a line, thicker where it is boosted, and each value with its mark. */
function priorityLine(plan, lane) {
  const runs = runsOf(plan, lane)
  const begin = ({ from }, i) => i ? 'V' : `M${plan.x(from)} `
  const path = runs.map((run, i) => `${begin(run, i)}${run.y}H${plan.x(run.to)}`).join('')
  const thick = Object.entries(INKS).flatMap(([why, ink]) => levels(
    runs.filter(run => run.why === why).map(run => [plan.x(run.from), plan.x(run.to), run.y]),
    `stroke:var(${ink});stroke-width:2.5`))
  return [
    `<path d="${path}" style="fill:none;stroke:var(--line);stroke-width:1.75"/>`, ...thick,
    ...runs.flatMap(run => numbersOf(plan, lane, run)),
  ]
}

/** Writes the priority of a stretch where it begins, and a boost's with its mark, and so often that
 * one is always seen. */
function numbersOf(plan, lane, { from, to, prio, why }) {
  const isWide = plan.x(to) - plan.x(from) > 36
  const text = why && isWide ? `${prio} ${MARKS[why]}` : prio
  const more = `data-lane="${lane.i + 1}" data-from="${from}" data-to="${to}"`
  const style = `fill:var(${INKS[why] ?? '--line'});font-weight:${why ? 650 : 400}`
  const places = why ? placesOf(plan, { from, to }) : [plan.x(from)], y = plan.numberAt(lane, prio)
  return places.map((x, i) =>
    words(x + 4, y, 11, style, text, `class="${i ? 'again' : 'prio'}" ${more}`))
}

const verbOf = bar => bar.owns ? 'owns' : 'waits for'
const barTop = (lane, bar) => lane.floor + 5 + bar.row * (BAR + 2)

/** Writes into a bar what it is, as far as there is room. */
function barWords(bar, x, top, room, more = '') {
  const isWide = room > (bar.owns ? 56 : 76)
  const text = isWide ? `${verbOf(bar)} m${bar.m}` : room > 17 ? `m${bar.m}` : ''
  const ink = `fill:${bar.owns ? 'var(--on-m)' : hue(bar.m)};font-weight:550`
  return words(x + 6, top + 10, 10, ink, text, `pointer-events="none" ${more}`)
}

/** Draws what a task owns, filled, and what it waits for, dashed. */
function ownedBars(plan, lane) {
  const { first, past } = plan.seen
  return barsOf(plan.view.bars, lane.i + 1, first, past).flatMap(bar => {
    const x = plan.x(bar.from), w = plan.x(bar.to) - x - 2, y = barTop(lane, bar)
    const dashed = `fill:none;stroke:${hue(bar.m)};stroke-dasharray:3 2`
    const fill = bar.owns ? `fill:${hue(bar.m)}` : dashed
    const more = `rx="3" class="${bar.owns ? 'owns' : 'waits'}" data-lane="${lane.i + 1}"`
      + ` data-from="${bar.from}" data-to="${bar.to}" data-mutex="${bar.m}"`
      + ` data-tip="task ${lane.i + 1} ${verbOf(bar)} mutex ${bar.m}"`
    const span = `data-from="${bar.from}" data-to="${bar.to}"`
    return [rect(x + 1, y, w, BAR, fill, more), barWords(bar, x, y, w, span)]
  })
}

/** Marks the steps that a task makes: a dot, or a cross if it was refused. */
function madeSteps(plan, lane) {
  const { view } = plan, out = []
  for (let k = plan.seen.first; k < plan.seen.past; k++) {
    const { actor, refused } = plan.states.maker(k)
    if (actor !== lane.i + 1) continue
    const x = plan.x(k), y = plan.level(lane, plan.task(lane, k).prio)
    const tip = `class="made" data-lane="${lane.i + 1}"`
      + ` data-tip="step ${k}: ${escape(asked(view, k))}, ${escape(view.reply(k))}"`
    out.push(refused
      ? `<path ${tip} d="M${x - 3.5} ${y - 3.5}l7 7m0 -7l-7 7" style="${CROSS}"/>`
      : `<circle ${tip} cx="${x}" cy="${y}" r="3.5" style="${DOT}"/>`)
  }
  return out
}

/** Draws the numbers of the steps, the column of the chosen one, and that of a rejected one. */
function columns(plan, now) {
  const { view, seen: { first, past } } = plan
  const wide = wideOf(view), every = plan.col >= wide ? 1 : 5, out = []
  const isFree = k => k % every === 0 && Math.abs(k - now) * plan.col >= wide
  for (let k = first; k < past; k++) {
    if (k !== now && !isFree(k)) continue
    const ink = k === now ? '--now' : k && k === view.rejected ? '--bad' : '--mute'
    const style = `fill:var(${ink});font-weight:${k === now ? 650 : 400}`
    out.push(words(plan.x(k) + plan.col / 2, 12, 11, style, k, 'text-anchor="middle"'))
  }
  const column = (k, style, more = '') =>
    rect(plan.x(k), TOP, plan.col, plan.height - TOP, style, more)
  if (view.rejected) out.push(column(view.rejected, 'fill:var(--bad-fill)'))
  out.push(rect(plan.x(now), 0, plan.col, plan.height, 'fill:var(--now-fill)', 'rx="3"'))
  for (let k = first; k < past; k++) {
    const more = `class="pick" data-step="${k}"`
    out.push(rect(plan.x(k), 0, plan.col, DEEPEST, 'fill:transparent', more))
  }
  return out
}

/** Draws the names and base priorities of the tasks. */
function laneNames(plan, now) {
  const out = [words(0, 12, 11, 'fill:var(--mute)', 'step')], states = plan.view.statesAt(now)
  for (const lane of plan.lanes.filter(it => plan.isSeen(it))) {
    const { base } = (states ?? plan.states).task(states ? now : plan.states.from, lane.i)
    out.push(words(0, lane.y + 24, 13, 'fill:var(--ink);font-weight:600', `task ${lane.i + 1}`))
    out.push(words(0, lane.y + 39, 11.5, 'fill:var(--soft)', `base ${base}`))
    out.push(rule(0, plan.side, lane.y + lane.deep - .5, 'stroke:var(--rule)'))
  }
  return out
}

/** Lists what may be said of a priority at the left edge of the view, the longest first. */
function edgeTexts({ prio, base, why, of, by }) {
  if (prio <= base) return [String(prio)]
  const cause = why === 'waiter' ? `task ${of} waits for m${by}` : `ceiling of m${by}`
  return [`${prio} ${MARKS[why]} ${cause}`, `${prio} ${MARKS[why]}`, String(prio), MARKS[why]]
}

/** Returns before which step what a key says of a lane's task is no longer the same as after step k. */
function pastOf(plan, lane, k, key) {
  let past = k + 1
  while (past < plan.seen.past && key(plan.task(lane, past)) === key(plan.task(lane, k))) past++
  return past
}

/** Returns the number at the left edge of the view of a lane, where the stretch that is seen there
 * began before, with its mark and what gave it as far as there is room. */
function edgeOf(plan, lane, left) {
  const k = Math.floor(left / plan.col), it = plan.task(lane, k), [long, ...shorter] = edgeTexts(it)
  const isFirst = !plan.states.has(k - 1) || runKey(plan.task(lane, k - 1)) !== runKey(it)
  if (plan.x(k) === left && isFirst) return []
  const fits = (text, key) =>
    text.length * LETTER + 8 < plan.x(pastOf(plan, lane, k, key)) - left
  const isLong = fits(long, other => edgeTexts(other)[0])
  const text = isLong ? long : shorter.find(text => fits(text, runKey))
  const style = `fill:var(${INKS[boostOf(it)] ?? '--line'});font-weight:${boostOf(it) ? 650 : 400}`
  const y = lane.y + plan.numberAt(lane, it.prio), more = `class="edge" data-lane="${lane.i + 1}"`
  return text ? [words(plan.side + 4, y, 11, style, text, more)] : []
}

/** Returns the words of the bars of a lane that began left of the view. */
function edgeBars(plan, lane, left) {
  const k = Math.floor(left / plan.col), bars = barsOf(plan.view.bars, lane.i + 1, k, k + 1)
  return bars.filter(bar => plan.x(bar.from) < left).map(bar =>
    barWords(bar, plan.side - 2, lane.y + barTop(lane, bar), plan.x(bar.to) - left - 2))
}

/** Returns what is said at the left edge of the view, which is so far from the first step. */
function edges(plan, left) {
  const isDrawn = plan.states.has(Math.floor(left / plan.col))
  const seen = plan.lanes.filter(it => isDrawn && plan.isSeen(it))
  return seen.flatMap(lane => [...edgeOf(plan, lane, left), ...edgeBars(plan, lane, left)])
}

/** Hides the words of the lanes that began left of the view, which the left edge says, and shows those
 * again that were hidden. Returns those that are. */
function hideCut(plan, left, lanes, hidden) {
  const k = left / plan.col
  const cut = [...lanes.querySelectorAll('text[data-from]')]
    .filter(({ dataset: { from, to } }) => from < k && k < to)
  for (const it of hidden.filter(it => !cut.includes(it))) it.style.visibility = ''
  for (const it of cut.filter(it => !hidden.includes(it))) it.style.visibility = 'hidden'
  return cut
}

/** Draws what is seen of a task's lane. */
function drawLane(plan, lane, left, right) {
  return [
    rule(left, right, lane.deep - .5, 'stroke:var(--rule)'),
    rule(left, right, lane.floor + .5, 'stroke:var(--grid)'),
    ...boostAreas(plan, lane), ...priorityLine(plan, lane), ...ownedBars(plan, lane),
    ...madeSteps(plan, lane),
  ]
}

/** Returns the names and the lanes that are seen, as two pictures of the same height. Each has parts,
 * with what it is the part of, where it is, and a function that returns its elements. */
function drawLanes(plan, states, now) {
  plan.states = states
  const { seen: { first, past }, height } = plan, left = plan.x(first), right = plan.x(past) + 4
  const seen = plan.lanes.filter(it => plan.isSeen(it))
  const names = { of: 'names', texts: () => laneNames(plan, now) }
  const steps = { of: 'steps', texts: () => columns(plan, now) }
  const lanes = seen.map(lane => ({
    of: lane.i, top: lane.y, deep: lane.deep, texts: () => drawLane(plan, lane, left, right) }))
  return {
    names: { width: plan.side, height, parts: [names] },
    lanes: { left, right, width: plan.width, height, parts: [steps, ...lanes] },
  }
}

/** Returns what is seen of a picture as a text. */
function svgOf({ left = 0, width, right = width, height, parts }) {
  const size = `width="${right - left}" height="${height}"`
  const drawn = ({ top, texts }) =>
    top ? `<g transform="translate(0 ${top})">${texts().join('')}</g>` : texts().join('')
  return `<svg ${SVG} ${size} viewBox="${left} 0 ${right - left} ${height}">`
    + `${parts.map(drawn).join('')}</svg>`
}
