// ---- the page -------------------------------------------------------------------------
const $ = id => document.getElementById(id)
const MOST_IN_ADDRESS = 8000 // characters

let judge, editor, view = null, now = 0, unfolded = false
const painter = new Painter(painted)
let isJudging = false
// as they are drawn, where they were scrolled to, and whether elements of them were made since
let lanes = { plan: null, left: 0, top: 0, isNew: false }
let cut = []                         // the words of the lanes that the left edge says
let drawn = ''                       // what the lanes and the graph show
let fetching = null, missed = null   // the view whose states are fetched; what was asked meanwhile

const isNarrow = () => innerWidth <= 820
const hasFocusIn = what => document.activeElement?.matches(what)

/** Draws all but the picture: the trace, the report and what is said of the chosen step. */
function drawTexts() {
  drawTrace()
  drawVerdict()
  drawBar()
  write($('limits'), limits(view, editor))
  drawReportLines()
}

const drawReportLines = () => drawReport(view, now, $('report'), painter)

const drawTrace = () => drawText(view, now, editor, { lines: $('lines'), said: $('replies') })

function drawVerdict() {
  const n = view.number
  const said = [`accepted ${n}`, `rejected at step ${n}`, `line ${n} is invalid`]
  const kinds = ['accepted', 'rejected', 'invalid']
  $('verdict').dataset.kind = kinds[view.kind] ?? 'memory'
  write($('verdict'), said[view.kind] ?? 'out of memory')
}

// ---- the picture: of the steps in view, which the worker makes

/** Returns how wide the pictures can be, and where the lanes are scrolled to. */
function rooms() {
  const { scrollLeft: left, scrollTop: top } = $('time')
  const narrow = isNarrow(), side = narrow ? 28 : 36
  const wide = id => $(id).parentElement.clientWidth - side
  return { narrow, time: wide('time'), graph: wide('graph'), left, top }
}

/** Returns the plan of the lanes, and where they are scrolled to, where alone they are drawn. */
function planAt(toStep, { narrow, time: width, left: scrollLeft, top }) {
  const height = innerHeight * .46, often = Infinity
  const plan = new Plan(view, { width, height, narrow, unfolded, often })
  const wide = width - plan.side, left = toStep ? placeOf(plan, scrollLeft, wide) : scrollLeft
  // As the style has it, but that on a narrow page few lanes are as high as they are.
  const deep = !narrow ? innerHeight * .56 : plan.isTall ? innerHeight * .8 : Infinity
  plan.see({ left, top, wide, deep })
  return { plan, at: { left, top, moves: left !== scrollLeft } }
}

/** Returns where the lanes are to be scrolled to, so that the chosen step is seen. */
function placeOf(plan, left, wide) {
  const here = plan.x(now), isSeen = here >= left && here + plan.col <= left + wide
  return isSeen ? left : Math.max(0, here - wide / 2)
}

const hasStates = (it, { first, past }) =>
  it.states?.has(first) && it.states.has(past - 1) && it.statesAt(now)

/** Asks for the states of these steps and of the chosen one. Returns whether they are wanted. */
async function fetchStates(it, { first, past }) {
  const fetched = async (from, to) => {
    const found = await judge.ask(it, 'states', from, to)
    return found && new States(found)
  }
  const k = now, states = await fetched(first, past)
  const here = states?.has(k) ? states : await fetched(k, k + 1)
  if (states && here) Object.assign(it, { states, here })
  return !!(states && here) && it === view
}

/** Draws the lanes near the chosen step, or near what is scrolled to, and the graph. */
async function drawPicture(toStep = true) {
  const it = view, isDrawn = !!(it.read && it.bars), room = rooms()
  for (const id of ['svg', 'png']) $(id).disabled = !isDrawn
  for (const id of ['time', 'graph']) $(id).classList.toggle('nothing', !it.read)
  if (!it.read) drawNothing()
  if (!isDrawn) return
  if (fetching === it) { missed = { toStep: toStep || missed?.toStep }; return }
  const { plan, at } = planAt(toStep, room), shows = shownBy(it, plan, room)
  if (shows === drawn) return
  if (!hasStates(it, plan.seen) && !await waitFor(it, plan)) return
  drawn = shows
  drawTime(plan, at)
  const { narrow, graph: width } = room
  if (it.statesAt(now)) drawState(it.statesAt(now).at(now), { narrow, width })
  if (!missed) return
  const again = missed.toStep
  missed = null
  await drawPicture(again)
}

/** Returns what tells the pictures of two plans apart. */
const shownBy = (it, { seen, height }, { narrow, time, graph }) =>
  JSON.stringify([it.since, now, seen, height, narrow, time, graph, unfolded])

/** Waits for the states that a picture needs. Returns whether they have come and are wanted. */
async function waitFor(it, plan) {
  fetching = it
  busy(true)
  try {
    const came = await fetchStates(it, plan.seen)
    if (came) busy(false)
    return came
  } catch (error) {
    failed(error)
    return false
  } finally {
    if (fetching === it) fetching = null
  }
}

/** Shows no picture. The elements of the last one stay, so that the next one makes few. */
function drawNothing() {
  drawn = ''
  lanes.plan = null
  for (const id of ['names', 'lanes', 'graph']) painter.paint($(id), [])
  fill($('why'), [])
  write($('when'), '')
  $('graph').removeAttribute('aria-label')
  $('unfold').hidden = true
}

/** Draws the lanes, and scrolls to where they are drawn. */
function drawTime(plan, at) {
  const pictures = drawLanes(plan, view.states, now), { names } = pictures
  const parts = [...names.parts, { of: 'edges', texts: () => edges(plan, at.left) }]
  painter.picture($('names'), { ...names, parts })
  painter.picture($('lanes'), pictures.lanes)
  $('time').classList.toggle('tall', plan.isTall)
  if (at.moves) $('time').scrollLeft = at.left
  lanes = { plan, ...at, isNew: true }
  $('unfold').hidden = !plan.folded && !unfolded
  $('unfold').textContent = unfolded
    ? 'Fold the tasks that no step names' : `Show ${plan.folded} tasks that no step names`
}

/** Draws what stands at the left edge, and all lanes where they were scrolled to the end of what
 * was drawn. */
function scrolled() {
  const { scrollLeft, scrollTop, clientWidth, clientHeight } = $('time')
  const isNear = Math.abs(scrollLeft - lanes.left) < clientWidth / 4
    && Math.abs(scrollTop - lanes.top) < clientHeight / 4
  if (!isNear && view) drawPicture(false)
  const edge = $('names').querySelectorAll('g')[1]
  if (!lanes.plan || !edge) return
  fill(edge, edges(lanes.plan, scrollLeft))
  cut = hideCut(lanes.plan, scrollLeft, $('lanes'), cut)
}

/** Shows that elements are being made, or that all are. */
function painted() {
  showBusy()
  if (painter.isPainting || !lanes.plan || !lanes.isNew) return
  lanes.isNew = false
  cut = hideCut(lanes.plan, $('time').scrollLeft, $('lanes'), cut)
}

function drawBar() {
  const { last } = view
  $('slider').max = last
  $('slider').value = now
  $('slider').disabled = !last
  $('back').disabled = now <= 0
  $('on').disabled = now >= last
  const reply = () => escape(view.reply(now))
  const step = () => `Step ${now}: <code>${escape(asked(view, now))}</code> <em>→ ${reply()}</em>`
  fill($('said'), [`<span>${now ? step() : last ? 'Before the first step' : 'No step yet'}</span>`])
  $('slider').setAttribute('aria-valuetext', $('said').textContent)
}

function drawState(state, room) {
  write($('when'), now ? `after step ${now}` : 'at the start')
  painter.picture($('graph'), drawGraph(state, room))
  const mark = why => `<span class="${why}" aria-hidden="true">${MARKS[why]}</span>`
  const items = boosts(state).map(({ why, said }) => `<li>${mark(why)} ${escape(said)}</li>`)
  const refused = refusal(view, now, state)
  if (refused) items.unshift(`<li>${mark('refused')} ${escape(refused)}</li>`)
  fill($('why'), items)
  const owners = state.mutexes.map((mutex, i) => ownership(i + 1, mutex))
  const waits = state.tasks.flatMap((task, i) =>
    task.waits ? [`task ${i + 1} waits for mutex ${task.waits}`] : [])
  $('graph').setAttribute('aria-label', [...owners, ...waits].join('; '))
}

// ---- what is chosen

/** Goes to step k, and shows its lines. */
function go(k) {
  now = Math.max(0, Math.min(k, view.last))
  showLines()
  drawTrace()
  drawBar()
  drawReportLines()
  drawPicture()
}

/** Scrolls the trace and the report to the chosen step. */
function showLines() {
  if (now && view.read) editor.show(view.first + now)
  $('report').scrollTop = placeInReport(view, now, $('report'))
}

/** Returns the step of the line at the caret, or null. */
function atCaret() {
  const k = editor.caret - view.first
  return view.read && k >= 1 && k <= view.last ? k : null
}

function busy(is) {
  isJudging = is
  showBusy()
}

function showBusy() { $('main').setAttribute('aria-busy', isJudging || painter.isPainting) }

/** Says that there is too little memory for the page's own buffers, or that the worker failed. */
function failed(error) {
  $('verdict').dataset.kind = 'memory'
  $('verdict').textContent = error.message
  busy(false)
}

/** Judges the text. Chooses the caret's step or the last; of an opened one the most boosted. */
async function judgeText(isOpened = false) {
  busy(true)
  try {
    const it = await judge.look(editor.text, editor.lines)
    const best = isOpened && it?.read ? await judge.ask(it, 'mostBoosted', it.last) : 0
    if (!it || best === null) return
    await nextFrame()
    if (!judge.isLast(it)) return
    view = it
    now = isOpened ? best : atCaret() ?? it.last
    drawTexts()
    if (isOpened) showLines()
    keepInAddress()
    await nextFrame()
    if (it !== view) return
    drawPicture()
    if (it.read && !it.bars && !await addBars(it)) return
    if (judge.isLast(it)) busy(false)
  } catch (error) {
    failed(error)
  }
}

/** Asks what each task owns and waits for, and draws it. Returns whether it is still wanted. */
async function addBars(it) {
  it.bars = await judge.ask(it, 'bars', it.last)
  if (!it.bars) return false
  await drawPicture()
  return it === view
}

/** Shows this text. */
function take(text) {
  comings++
  showStart(false)
  editor.set(text)
  $('time').scrollLeft = $('time').scrollTop = $('report').scrollTop = 0
  return judgeText(true)
}

/** Judges what was typed, and shows it in the next frame, before the answer or with it. */
function typed() {
  comings++
  $('examples').value = ''
  $('about-example').textContent = ''
  editor.changed()
  judgeText()
  nextFrame().then(() => { if (view) drawTrace() })
}

// ---- the address, files, examples

let comings = 0   // how many texts came: typed, chosen or opened

let keeping = 0
function keepInAddress() {
  clearTimeout(keeping)
  keeping = setTimeout(() => {
    const isShort = view.text.length <= MOST_IN_ADDRESS
    const hash = isShort ? `#trace=${encodeURIComponent(view.text)}` : '#'
    const fits = isShort && hash.length <= MOST_IN_ADDRESS
    history.replaceState(null, '', fits ? hash : '#')
    $('link').textContent = fits ? '' : 'This trace is too long for a link.'
  }, 250)
}

/** Returns the trace in the address, or null. */
function inAddress() {
  if (!location.hash.startsWith('#trace=')) return null
  try { return decodeURIComponent(location.hash.slice(7)) } catch { return null }
}

/** Shows a file, unless another text came while it was read. */
async function openFile(file) {
  if (!file) return
  const mine = ++comings
  const text = await file.text()
  if (mine !== comings) return
  take(text)
  $('examples').value = ''
}

function takeExample(name) {
  const { text, about } = PIM_EXAMPLES[name]
  $('examples').value = name
  take(text)
  $('about-example').textContent = about
}

// ---- the first visit: two traces that differ in one line
const STARTERS = ['inversion_suffered', 'inversion_avoided']
let started = null

function showStart(shown) {
  $('start').hidden = !shown
  $('main').hidden = shown
  $('about-example').textContent = ''
  if (shown) { $('verdict').textContent = ''; $('examples').value = 'start'; drawStart() }
}

/** Returns the views of both traces, with all their states, or null if another text was opened. */
async function viewsOfStart() {
  const found = []
  for (const name of STARTERS) {
    const { text } = PIM_EXAMPLES[name], it = await judge.look(text, text.split('\n'))
    const bars = it && await judge.ask(it, 'bars', it.last)
    const states = bars && await judge.ask(it, 'states', 0, it.last + 1)
    if (!states) return null
    found.push(Object.assign(it, { bars, states: new States(states) }))
  }
  return found
}

async function drawStart() {
  started ??= await viewsOfStart().catch(failed)
  if (!started || $('start').hidden) return
  started.forEach((it, i) => {
    const narrow = innerWidth < 500, width = $(STARTERS[i]).clientWidth - 40
    const plan = new Plan(it, { width, height: 0, narrow })
    const { names, lanes } = drawLanes(plan, it.states, 2), other = started[1 - i].lines
    const lines = it.lines.slice(0, -1).map((line, n) =>
      line === other[n] ? `<span>${coloured(line)}</span>` : `<mark>${coloured(line)}</mark>`)
    const section = $(STARTERS[i]), state = it.states.at(2)
    section.querySelector('pre').innerHTML = lines.join('')
    section.querySelector('.picture').innerHTML = svgOf(names) + svgOf(lanes)
    const said = boosts(state)[0]?.said ?? `Task 1 executes at its base, ${state.tasks[0].prio}.`
    section.querySelector('.step').textContent = `After step 2: ${said}`
  })
}

// ---- events

function showTip(event) {
  const text = event.target.closest?.('[data-tip]')?.dataset.tip, tip = $('tip')
  tip.classList.toggle('on', !!text)
  if (!text) return
  tip.textContent = text
  const below = event.clientY + 16 + tip.offsetHeight <= innerHeight
  tip.style.left = `${Math.min(event.clientX + 12, innerWidth - tip.offsetWidth - 8)}px`
  tip.style.top = `${below ? event.clientY + 16 : event.clientY - tip.offsetHeight - 10}px`
}

/** Moves by the arrow keys, but where they move a caret or a choice. */
function keyPressed(event) {
  const move = { ArrowLeft: -1, ArrowRight: 1, Home: -Infinity, End: Infinity }[event.key]
  const modified = event.ctrlKey || event.metaKey || event.altKey
  if (move === undefined || modified || $('main').hidden || $('about').open) return
  if (hasFocusIn('textarea, select, input')) return
  event.preventDefault()
  go(now + move)
}

/** Goes to the step at a point of the lanes or of the report. */
function stepClicked(event) {
  const all = document.elementsFromPoint(event.clientX, event.clientY)
  const under = all.find(it => it.dataset?.step)
  if (under) go(+under.dataset.step)
}

async function save(as) {
  const it = view, states = await judge.ask(it, 'states', ...savedOf(it, now))
  if (states) as(pictureOf(it, new States(states), now, unfolded))
}

function listenToControls() {
  $('examples').onchange = () => {
    const name = $('examples').value
    if (name === 'start') showStart(true)
    else if (name) takeExample(name)
  }
  $('slider').oninput = () => go(+$('slider').value)
  $('back').onclick = () => go(now - 1)
  $('on').onclick = () => go(now + 1)
  $('open').onclick = () => $('file').click()
  $('file').onchange = () => openFile($('file').files[0])
  $('svg').onclick = () => save(saveSvg)
  $('png').onclick = () => save(savePng)
  $('unfold').onclick = () => { unfolded = !unfolded; drawPicture() }
  $('more').onclick = () => $('about').showModal()
  for (const button of document.querySelectorAll('[data-example]')) {
    button.onclick = () => takeExample(button.dataset.example)
  }
}

function listenToEditor() {
  const text = $('text')
  text.oninput = typed
  text.onbeforeinput = event => editor.typing(event)
  text.onpaste = event => editor.pasted(event)
  text.oncopy = text.oncut = event => editor.copied(event)
  text.onkeydown = event => editor.keyDown(event)
  text.onpointerdown = () => editor.pointed()
  text.addEventListener('compositionstart', () => editor.composes(true))
  text.addEventListener('compositionend', () => editor.composes(false))
  text.onkeyup = text.onclick = () => {
    const k = view?.lines === editor.lines && atCaret()
    if (k && k !== now) go(k)
  }
  $('editor').onscroll = () => {
    editor.scrolled()
    if (view) drawTrace()
  }
}

function listen() {
  listenToControls()
  listenToEditor()
  $('report').onclick = $('time').onclick = stepClicked
  $('report').onscroll = () => { if (view) drawReportLines() }
  $('time').onscroll = scrolled
  addEventListener('keydown', keyPressed)
  addEventListener('resize', resized)
  addEventListener('pointermove', showTip)
  addEventListener('hashchange', () => {
    const text = inAddress()
    if (text !== null && text !== view?.text) take(text)
  })
  addEventListener('dragover', event => event.preventDefault())
  addEventListener('drop', event => {
    event.preventDefault()
    openFile(event.dataTransfer.files[0])
  })
}

function resized() {
  if (!$('start').hidden) { drawStart(); return }
  editor.measure()
  editor.fit()
  if (!view) return
  drawTexts()
  drawPicture()
}

/** Says that the browser can't run the module. */
function unsupported(error) {
  $('verdict').textContent = 'not supported'
  $('start').hidden = true
  $('main').hidden = true
  $('unsupported').hidden = false
  $('unsupported').append(` ${error}`)
}

function start() {
  try {
    judge = new Judge(new WebAssembly.Module(Uint8Array.from(atob(PIM_WASM), c => c.charCodeAt(0))))
  } catch (error) {
    unsupported(error)
    return
  }
  editor = new Editor($('text'), $('sheet'), $('editor'))
  editor.measure()
  for (const [name, { title }] of Object.entries(PIM_EXAMPLES)) {
    $('examples').add(new Option(title, name))
  }
  listen()
  const text = inAddress()
  if (text === null) showStart(true)
  else take(text)
}

start()
