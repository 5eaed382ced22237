import { OWN, Recording, WAIT, above } from './data.js'
import { AXIS, Lanes, Layout, Paint } from './lanes.js'
import { Overview } from './overview.js'
import { View } from './view.js'
import { Table } from './table.js'
import { drawFinding, longestOf } from './finding.js'
import { linesOf } from './said.js'
import { count, duration, made, moment } from './words.js'

// ---- the page: what is chosen, and what the pointer and the keys do

const $ = id => document.getElementById(id)
const MOST_LANES = 24       // that are shown at first, but for those of findings
const MOST_FIRST = 8, MOST_RAN = 3  // lanes of a finding, and of who ran meanwhile, that come first
const NARROW_LANE = 44      // pixels of a lane on a telephone: its name has two lines
const FOLLOW = .12          // of the view by which the arrow keys move it

const isNarrow = () => innerWidth <= 820
const isWide = () => innerWidth >= 1800

let recording, view, table, lanes, overview, paint, layout, shownLanes
let chosen = null, nth = 0          // the finding, and which of its waits
let pointed = null, focused = null  // bars, with the time at which they are pointed at
let unfolded = false, isDirty = false, side = 150
const frames = []                   // how long the last ones took to draw, in milliseconds

// ---- drawing

function redraw() {
  if (isDirty) return
  isDirty = true
  requestAnimationFrame(() => {
    isDirty = false
    const begin = performance.now()
    draw()
    frames.push(performance.now() - begin)
    if (frames.length > 1000) frames.shift()
  })
}

function draw() {
  const bar = pointed ?? focused
  const marked = { spot: spotOf(), way: wayOf(bar), bar: bar?.bar, meanwhile: meanwhileOf() }
  lanes.draw({ view, layout, paint, side, top: $('lanes').scrollTop, marked })
  overview.draw(view, paint)
  const text = `${moment(view.from)} to ${moment(view.to)}: ${duration(view.span)}`
  if ($('range').textContent !== text) $('range').textContent = text
}

const spotOf = () => chosen?.spots[nth] ?? null

/** Returns by lane for how long it ran in place of the runner in the chosen wait. */
function meanwhileOf() {
  const bar = spotOf() && recording.barOf(spotOf())
  const found = new Map()
  for (const { lane, time } of bar?.meanwhile ?? []) {
    found.set(recording.lanes[lane], (found.get(recording.lanes[lane]) ?? 0) + time)
  }
  return found
}

/** Returns what is drawn as arrows: the way of what is pointed at, or else of the chosen wait. */
function wayOf(marked) {
  const bar = marked?.bar ?? (spotOf() && recording.barOf(spotOf()))
  if (bar?.kind !== WAIT) return []
  const time = marked ? Math.min(Math.max(marked.time, bar.begin), bar.end - 1) : timeOf(bar)
  return recording.wayOf(bar, time).map(it => ({ ...it, time }))
}

/** Returns the time at which a wait is told: of its longest inversion, or of the deadlock. */
function timeOf(bar) {
  if (chosen?.kind === 'deadlock') return Math.max(...chosen.spots.map(spot => spot.begin))
  return longestOf(bar)?.begin ?? bar.begin
}

/** Chooses the lanes: those of findings, and others while they are few. */
function fold() {
  const { findings } = recording, told = findings.filter(it => it.isBad || findings.length < 12)
  const inFindings = new Set(told.flatMap(it => it.lanes.slice(0, MOST_FIRST)))
  const parts = recording.lanes.filter(lane => lane.part)
  const few = parts.length <= MOST_LANES ? parts
    : parts.filter((lane, i) => inFindings.has(lane.index) || i < MOST_LANES)
  const shown = unfolded ? recording.lanes : few
  const rest = recording.lanes.length - shown.length
  $('unfold').hidden = !unfolded && !rest
  $('unfold').textContent = unfolded ? 'Fewer threads' : `${count(rest, 'more thread')}`
  shownLanes = shown
}

/** Places the lanes in the room that there is, those of the chosen wait first. */
function place() {
  const first = firstLanes(), high = $('lanes').clientHeight - AXIS - 8
  const room = isNarrow() ? NARROW_LANE * shownLanes.length : high
  const others = shownLanes.filter(lane => !first.includes(lane))
  layout = new Layout([...first, ...others], first, recording.hasStays, room)
  drawNames()
}

/** Returns the lanes of the chosen wait: what waits, what owns, and what ran longest meanwhile. */
function firstLanes() {
  const bar = spotOf() && recording.barOf(spotOf())
  if (!bar) {
    const spots = chosen?.spots.map(spot => spot.lane) ?? []
    const found = new Set(spots.length ? spots : chosen?.lanes ?? [])
    return [...found].slice(0, MOST_FIRST).map(index => recording.lanes[index])
  }
  const way = wayOf(null).flatMap(({ from, to }) => [from.lane, to.lane])
  const by = [bar.owner, bar.by].filter(Boolean).map(one => recording.lanes[one - 1])
  const longest = [...meanwhileOf()].sort((one, other) => other[1] - one[1])
  const ran = longest.slice(0, MOST_RAN).map(([lane]) => lane)
  const dead = chosen.kind === 'deadlock' ? chosen.lanes.map(index => recording.lanes[index]) : []
  const runners = bar.late?.map(it => recording.lanes[it.runner]) ?? []
  const found = new Set([bar.lane, ...way, ...runners, ...by, ...ran, ...dead])
  return [...found].sort((one, other) => one.index - other.index)
}

function drawNames() {
  const inChosen = new Set(firstLanes().map(lane => lane.index))
  $('names').replaceChildren(...layout.places.map(({ lane, y, bars }) => {
    const levels = lane.top === lane.level ? lane.level : `${lane.level}–${lane.top}`
    const words = [made('b', '', lane.name), made('span', '', levels)]
    const name = made('div', inChosen.has(lane.index) ? 'in' : '', ...words)
    name.style.top = `${AXIS + bars + layout.bar / 2 - (isNarrow() ? 14 : 9)}px`
    name.title = lane.name
    return name
  }))
}

const ratioOf = () => Math.min(devicePixelRatio || 1, 3)

/** Fits the canvases to the window. */
function resize() {
  const margin = isNarrow() ? 14 : 18
  const longest = Math.max(0, ...shownLanes.map(lane => lane.name.length))
  side = isNarrow() ? 96 : Math.min(Math.max(150, 64 + 8 * longest), 230)
  $('names').style.width = `${side - 6}px`
  arrange()
  overview.resize($('lanes').clientWidth - 2 * margin, 30, ratioOf(), side - margin)
  redraw()
}

/** Places the lanes, and makes the canvas as high as what is seen of them. */
function arrange() {
  place()
  const all = layout.height + AXIS, scroller = $('lanes')
  $('sheet').style.height = isNarrow() ? `${all}px` : `max(100%, ${all}px)`
  const width = scroller.clientWidth
  const room = isNarrow() ? Math.min(all, innerHeight * .7) : scroller.clientHeight
  const height = Math.max(60, room), ratio = ratioOf()
  const isSame = lanes.width === width && lanes.height === height && lanes.ratio === ratio
  if (!isSame) lanes.resize(width, height, ratio)
}

function repaint() {
  paint = new Paint(ratioOf())
  drawLegend()
  redraw()
}

/** Draws the swatches by the same colours and shapes as the lanes. */
function drawLegend() {
  const has = {
    stays: recording.hasStays, windows: !!recording.windows,
    late: recording.lanes.some(lane => lane.late.of.length),
    boosts: recording.lanes.some(lane => lane.boosts.of.length),
  }
  const needy = document.querySelectorAll('#legend [data-needs]')
  for (const it of needy) it.hidden = !has[it.dataset.needs]
  for (const canvas of document.querySelectorAll('#legend canvas')) {
    const ratio = ratioOf(), ink = canvas.getContext('2d'), what = canvas.dataset.swatch
    canvas.width = 26 * ratio
    canvas.height = 12 * ratio
    ink.scale(ratio, ratio)
    const fill = (colour, x, y, w, h) => { ink.fillStyle = colour; ink.fillRect(x, y, w, h) }
    if (what === 'own' || what === 'cause') fill(paint.own, 0, 0, 26, 12)
    if (what === 'cause') fill(paint.late, 0, 9, 26, 3)
    if (what === 'wait') { fill(paint.wait, 0, 0, 26, 12); fill(paint.waitFill, 1, 1, 24, 10) }
    if (what === 'late') { fill(paint.late, 0, 0, 26, 12); fill(paint.hatch, 1, 1, 24, 10) }
    if (what === 'boost') fill(paint.boost, 0, 5, 26, 2.5)
    if (what === 'stay') fill(paint.stay, 0, 5, 26, 3)
    if (what === 'share') fill(paint.share, 0, 3, 26, 9)
  }
}

// ---- choosing

/** Chooses a finding and one of its waits, and shows that. */
function choose(finding, to = 0, isZoomed = true) {
  chosen = finding
  nth = Math.min(to, Math.max(0, finding.spots.length - 1))
  focused = null
  table.mark(finding)
  drawFinding(recording, finding, nth)
  arrange()
  $('lanes').scrollTop = 0
  if (isZoomed && spotOf()) showSpot()
  const bar = spotOf() && recording.barOf(spotOf())
  say(bar, bar && timeOf(bar))
  redraw()
}

function showSpot() {
  const { begin, end, lane } = spotOf()
  if (chosen.kind === 'deadlock') showDeadlock()
  else view.showAround(begin, end)
  if (!isNarrow()) revealLane(recording.lanes[lane])
}

/** Shows how a deadlock came about: from the first of its ownerships to the last of its waits. */
function showDeadlock() {
  const waits = chosen.spots.map(spot => recording.barOf(spot))
  const last = Math.max(...waits.map(it => it.begin))
  const owners = waits.map(it => recording.ownerAt(it.what, last)).filter(Boolean)
  view.showAround(Math.min(last, ...owners.map(it => it.begin)), last)
}

function revealLane(lane) {
  const place = layout.of.get(lane), { scrollTop, clientHeight } = $('lanes')
  if (!place) return
  const bottom = place.y + place.height + AXIS
  if (place.y < scrollTop) $('lanes').scrollTop = place.y
  else if (bottom > scrollTop + clientHeight) $('lanes').scrollTop = bottom - clientHeight
}

function step(by) {
  if (!chosen) return
  const to = nth + by
  if (to >= 0 && to < chosen.spots.length) choose(chosen, to)
}

/** Chooses the finding that has a bar, if one has. */
function chooseBar(bar) {
  for (const finding of recording.findings) {
    const isIts = it => it.lane === bar.lane.index && it.begin === bar.begin && it.end === bar.end
    const at = finding.spots.findIndex(isIts)
    if (at >= 0 && bar.kind !== OWN) return choose(finding, at, false)
  }
}

/** Says in the line below the lanes what a bar is. */
function say(bar, time = bar?.begin) {
  const text = bar ? linesOf(recording, bar, time).join('; ') : ''
  if ($('said').textContent !== text) $('said').textContent = text
}

// ---- the pointer

let pointers = new Map(), dragged = false, pinch = null

function placeOf(event) {
  const box = $('canvas').getBoundingClientRect()
  return { x: event.clientX - box.left, y: event.clientY - box.top }
}

const shareOf = x => Math.min(Math.max((x - side) / Math.max(1, lanes.width - side), 0), 1)

function pointAt(event) {
  const { x, y } = placeOf(event), bar = lanes.barAt(x, y), time = lanes.time(x)
  if (bar !== pointed?.bar) redraw()
  pointed = bar ? { bar, time } : null
  say(bar ?? focused?.bar ?? (spotOf() && recording.barOf(spotOf())), bar ? time : undefined)
  showTip(event, bar, time)
}

function showTip(event, bar, time) {
  const tip = $('tip')
  tip.classList.toggle('on', !!bar && event.pointerType !== 'touch')
  if (!bar) return
  const [first, ...others] = linesOf(recording, bar, time)
  tip.replaceChildren(made('b', '', first), ...others.map(line => made('div', '', line)))
  const below = event.clientY + 18 + tip.offsetHeight <= innerHeight
  const left = Math.max(4, Math.min(event.clientX + 14, innerWidth - tip.offsetWidth - 8))
  const top = below ? event.clientY + 18 : event.clientY - tip.offsetHeight - 12
  tip.style.transform = `translate(${left}px, ${top}px)`
}

function leave() {
  if (pointed) redraw()
  pointed = null
  $('tip').classList.remove('on')
}

/** The wheel zooms; with Shift, or across, it moves. */
function wheeled(event) {
  const { x } = placeOf(event), unit = event.deltaMode === 1 ? 16 : 1
  if (x < side && !event.ctrlKey) return
  event.preventDefault()
  const across = event.shiftKey ? event.deltaY || event.deltaX : event.deltaX
  const isAcross = Math.abs(across) > Math.abs(event.deltaY) || event.shiftKey
  if (isAcross) view.move(across * unit / (lanes.width - side))
  else view.zoom(Math.exp(event.deltaY * unit * (event.ctrlKey ? .008 : .0018)), shareOf(x))
  leave()
  redraw()
}

/** A pointer points, or drags if it is down; two of them pinch. */
function pointerMoved(event) {
  const before = pointers.get(event.pointerId), box = $('lanes')
  if (!before) return pointAt(event)
  const now = placeOf(event)
  pointers.set(event.pointerId, now)
  if (pinch) return pinched()
  if (!dragged && Math.abs(now.x - before.x) < 4) { pointers.set(event.pointerId, before); return }
  if (!dragged) box.setPointerCapture(event.pointerId)
  dragged = true
  box.classList.add('dragged')
  leave()
  view.move((before.x - now.x) / (lanes.width - side))
  redraw()
}

function listenToPointers() {
  const box = $('lanes')
  box.addEventListener('wheel', wheeled, { passive: false })
  box.addEventListener('pointerdown', event => {
    pointers.set(event.pointerId, placeOf(event))
    dragged = false
    pinch = pointers.size === 2 ? pinchOf() : null
  })
  box.addEventListener('pointermove', pointerMoved)
  for (const name of ['pointerup', 'pointercancel']) {
    box.addEventListener(name, event => {
      pointers.delete(event.pointerId)
      pinch = null
      box.classList.remove('dragged')
    })
  }
  box.addEventListener('pointerleave', leave)
  box.addEventListener('click', event => {
    if (dragged) return
    pointAt(event)
    if (!pointed) return
    chooseBar(pointed.bar)
    focused = pointed
    redraw()
  })
  box.addEventListener('scroll', redraw)
  listenToOverview()
}

const pinchOf = () => {
  const [one, other] = [...pointers.values()]
  return { x: (one.x + other.x) / 2, apart: Math.max(24, Math.abs(one.x - other.x)) }
}

/** Zooms and moves so that what is under two fingers stays there. */
function pinched() {
  const now = pinchOf()
  view.zoom(pinch.apart / now.apart, shareOf(now.x))
  view.move((pinch.x - now.x) / (lanes.width - side))
  pinch = now
  redraw()
}

function listenToOverview() {
  const canvas = $('overview')
  const go = event => {
    const time = overview.time(event.clientX - canvas.getBoundingClientRect().left)
    view.show(time - view.span / 2, time + view.span / 2)
    redraw()
  }
  canvas.addEventListener('pointerdown', event => {
    canvas.setPointerCapture(event.pointerId)
    go(event)
  })
  canvas.addEventListener('pointermove', event => { if (event.buttons) go(event) })
}

// ---- the keys

/** Returns the bar next to the focused one in its lane that waits, or is wide enough to be seen. */
function neighbour(by) {
  const { bar } = focused, least = 3 * lanes.perPixel
  const bars = bar.lane.rows.flatMap(row => {
    const near = above(row.begin, bar.begin)
    return row.bars.slice(Math.max(0, near - 400), near + 400)
  }).filter(it => it === bar || it.kind !== OWN || it.end - it.begin >= least)
  bars.sort((one, other) => one.begin - other.begin || one.row - other.row)
  return bars[bars.indexOf(bar) + by] ?? null
}

/** Returns the bar of a lane that is nearest to a time. */
function nearest(lane, time) {
  let best = null
  const far = it => Math.max(it.begin - time, time - it.end, 0)
  const isNearer = it => !best || far(it) < far(best)
  for (const row of lane.rows) {
    const at = above(row.begin, time)
    for (const it of row.bars.slice(Math.max(0, at - 2), at + 2)) if (isNearer(it)) best = it
  }
  return best
}

function focusOn(bar) {
  if (!bar) return
  focused = { bar, time: bar.kind === WAIT ? timeOf(bar) : bar.begin }
  view.reveal(bar.begin, bar.end)
  revealLane(bar.lane)
  say(bar, focused.time)
  redraw()
}

/** Goes from bar to bar, or from lane to lane. */
function walk(across, down) {
  if (!focused) {
    const bar = spotOf() && recording.barOf(spotOf())
    return focusOn(bar ?? layout.places.map(({ lane }) => nearest(lane, view.from)).find(Boolean))
  }
  if (across) return focusOn(neighbour(across))
  const lanesShown = layout.places.map(place => place.lane).filter(lane => lane.rows.length)
  const lane = lanesShown[lanesShown.indexOf(focused.bar.lane) + down]
  if (lane) focusOn(nearest(lane, Math.min(Math.max(focused.bar.begin, view.from), view.to)))
}

const KEYS = {
  '+': () => view.zoom(.7), '=': () => view.zoom(.7), w: () => view.zoom(.7),
  '-': () => view.zoom(1 / .7), s: () => view.zoom(1 / .7),
  a: () => view.move(-FOLLOW), d: () => view.move(FOLLOW),
  0: () => view.whole(), Home: () => view.whole(),
}
const MOVES = { ArrowLeft: [-1, 0], ArrowRight: [1, 0], ArrowUp: [0, -1], ArrowDown: [0, 1] }

const showFocused = () => view.showAround(focused.bar.begin, focused.bar.end)

function keyPressed(event) {
  const isOther = event.ctrlKey || event.metaKey || event.altKey
  if (isOther || event.target.matches('input, select')) return
  const isInLanes = event.target === $('lanes'), move = isInLanes && MOVES[event.key]
  if (move && event.shiftKey) view.move(move[0] * FOLLOW)
  else if (move) walk(...move)
  else if (isInLanes && event.key === 'Enter' && focused) showFocused()
  else if (isInLanes && event.key === 'Escape') { focused = null; leave(); say(null) }
  else if (event.key === 'n') step(1)
  else if (event.key === 'p') step(-1)
  else if (event.key === '/') $('filter').focus()
  else if (KEYS[event.key]) KEYS[event.key]()
  else return
  event.preventDefault()
  redraw()
}

// ---- the rest

function drawExtra() {
  const cell = time => made('td', 'number', time ? duration(time) : '–')
  const headOf = heads => made('tr', '', ...heads.map(head => made('th', 'number', head)))
  const table = (about, heads, rows) => !rows.length ? [] : [made('p', '', about),
    made('table', '', made('thead', '', headOf(heads)), made('tbody', '', ...rows))]
  const owned = recording.owned.map(([mutex, thread, time, where]) =>
    made('tr', '', cell(time), made('td', '', `${mutex} by ${thread}`), made('td', 'place', where)))
  const bounds = recording.bounds.map(([thread, ...times]) =>
    made('tr', '', ...times.map(cell), made('td', '', thread)))
  const parts = recording.unseen.map(line => made('li', '', line))
  $('extra').replaceChildren(
    ...table('The longest ownership of each mutex that was waited for:', [], owned),
    ...table('Blocking by lower threads, at most, on one CPU, if sections take no longer:',
      ['INHERIT', 'PROTECT', 'waited', ''], bounds),
    made('p', '', 'Not looked at:'), made('ul', '', ...parts))
  if (!recording.windows) return
  const facts = count(recording.facts, 'fact')
  const windows = count(recording.windows.length, 'window')
  const text = 'The page has all waits. Ownerships, and when threads had a CPU, are those around '
    + `the worst waits of each finding, of ${facts}: ${windows}, marked below the strip and axis. `
    + 'Elsewhere the lanes show which share of the time they took. --all keeps all.'
  $('extra').prepend(made('p', '', text))
}

async function start() {
  const data = JSON.parse($('data').textContent)
  if (!window.DecompressionStream) {
    const text = 'This browser is too old to unpack the picture. The report as text is below.'
    $('main').prepend(made('p', 'none', text))
    $('time').hidden = true
    return
  }
  recording = await Recording.of(data)
  view = new View(recording.ended)
  lanes = new Lanes($('canvas'), recording)
  overview = new Overview($('overview'), recording)
  table = new Table(recording, finding => choose(finding))
  paint = new Paint(ratioOf())
  fold()
  drawExtra()
  drawLegend()
  resize()
  listenToPointers()
  document.addEventListener('keydown', keyPressed)
  $('unfold').onclick = () => { unfolded = !unfolded; fold(); resize() }
  $('in').onclick = () => { view.zoom(.6); redraw() }
  $('out').onclick = () => { view.zoom(1 / .6); redraw() }
  $('whole').onclick = () => { view.whole(); redraw() }
  $('worst').onclick = () => { if (spotOf()) showSpot(); redraw() }
  $('previous').onclick = () => step(-1)
  $('next').onclick = () => step(1)
  new ResizeObserver(resize).observe($('lanes'))
  matchMedia('(prefers-color-scheme: dark)').addEventListener('change', repaint)
  if (table.shown.length) choose(table.shown[0])
  else $('worst').disabled = true
  // For tests and measurements.
  window.pimReport = {
    recording, view, redraw, draw, frames, lanes, choose,
    get chosen() { return chosen }, get focused() { return focused },
  }
  document.body.dataset.ready = 'yes'
}

start()
