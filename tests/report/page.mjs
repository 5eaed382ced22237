// page.mjs CHROMIUM FOLDER [SHOTS]: uses the pages of FOLDER as a reader does.
//
// Each NAME.html has its report beside it, NAME.json. A line of JSON is printed for each check: its name,
// and why it failed or null. With SHOTS, a folder, screenshots of three sizes go there.
import { readFileSync, readdirSync } from 'node:fs'
import { Page, TWO_FRAMES, until } from '../web/browser.mjs'

const [program, folder, shots] = process.argv.slice(2)
const SIZES = [[390, 844], [1280, 800], [2560, 1300]]
const SHIFT = 8
const check = (name, why) => console.log(JSON.stringify([name, why || null]))
const differs = (got, wanted) => {
  const [a, b] = [got, wanted].map(it => JSON.stringify(it))
  return a === b ? null : `${a.slice(0, 300)} in place of ${b.slice(0, 300)}`
}

const page = await Page.open(program)
const evaluate = words => page.evaluate(words)
const frame = () => evaluate(TWO_FRAMES)
const view = () => evaluate('[pimReport.view.from, pimReport.view.to]')
const text = id => evaluate(`document.getElementById('${id}').textContent`)
const all = (query, of) => evaluate(`[...document.querySelectorAll('${query}')].map(it => ${of})`)
const box = id => evaluate(`(({ x, y, width, height }) => ({ x, y, width, height }))(
  document.getElementById('${id}').getBoundingClientRect())`)

async function open(name, width = 1280, height = 800, dark = false) {
  await page.size(width, height, dark)
  await page.call('Emulation.setTouchEmulationEnabled', { enabled: width < 800 })
  await page.load(`file://${folder}/${name}.html`)
  await until(`${name} is ready`, () => evaluate('document.body.dataset.ready === "yes"'))
  await frame()
}

const reportOf = name => JSON.parse(readFileSync(`${folder}/${name}.json`, 'utf8'))
const names = readdirSync(folder).filter(it => it.endsWith('.html')).map(it => it.slice(0, -5)).sort()

async function clicked(id) {
  await evaluate(`document.getElementById('${id}').click()`)
  await frame()
}

async function pressed(...key) {
  await page.key(...key)
  await frame()
}

async function wheel(x, y, deltaY, deltaX = 0, modifiers = 0) {
  await page.call('Input.dispatchMouseEvent', { type: 'mouseWheel', x, y, deltaX, deltaY, modifiers })
  await frame()
}

async function typed(id, value, event) {
  await evaluate(`(it => { it.value = ${JSON.stringify(value)}; it.dispatchEvent(new Event('${event}')) })(
    document.getElementById('${id}'))`)
}

// ---- each page

/** What a page shows is what its report has: the sentences, the table, the bars. */
async function contents(name) {
  const report = reportOf(name)
  await open(name)
  check(`${name}: the heading`, differs(await all('h1', 'it.textContent'), [report.verdict[0]]))
  const words = await import(`data:text/javascript,${encodeURIComponent(
    readFileSync(new URL('../../report/page/words.js', import.meta.url), 'utf8'))}`)
  const wanted = report.findings.map(it =>
    [it.times.toLocaleString('en'), ...[it.worst, it.total].map(time => time ? words.duration(time) : '')])
  const cells = "['times', 'worst', 'total'].map(name => it.querySelector('.' + name).textContent)"
  check(`${name}: the table`, differs(await all('tbody tr[aria-selected]', cells), wanted))
  check(`${name}: the bars`, differs(await barsShown(), barsOf(report)))
  const chosen = report.findings[0]
  if (!chosen || chosen.kind === 'deadlock' || chosen.kind === 'orders') return
  const [from, to] = await view()
  check(`${name}: the worst is shown at first`,
    from <= chosen.since && chosen.since + chosen.lasted <= to ? null : `${from} to ${to}`)
  const called = ({ thread, level }) => `${report.threads.find(it => it.number === thread).called} (${level})`
  const title = `${called(chosen.who[0])} held up by ${called(chosen.by[0] ?? chosen.who[0])}`
  if (chosen.kind === 'late') check(`${name}: the title`, differs(await text('finding-title'), title))
  check(`${name}: the finding is said`, (await text('finding')).includes(chosen.why) ? null : await text('finding'))
}

/** Returns the waits as the page has them: thread, begin, end, what, level, inverted. */
const barsShown = () => evaluate(`(({ lanes, mutexes, objects }) => lanes.flatMap(lane =>
  lane.rows.flatMap(row => row.bars).filter(bar => bar.kind).map(bar => [lane.name, bar.begin, bar.end,
    (bar.kind === 1 ? mutexes : objects)[bar.what].name, bar.level, bar.inverted ?? 0])).map(it => it.join(' ')).sort()
)(pimReport.recording)`)

function barsOf({ threads, mutexes, objects, waits, blocked }) {
  const called = (list, number) => list.find(it => it.number === number).called
  const bars = [...waits.map(it => [it, called(mutexes, it.mutex), it.inverted]),
    ...blocked.map(it => [it, called(objects, it.object), 0])]
  return bars.map(([it, what, inverted]) =>
    [called(threads, it.thread), it.from, it.from + it.lasted, what, it.level, inverted].join(' ')).sort()
}

/** Nothing is wider than the window, and each control has a name. */
async function sizes(name) {
  const wide = []
  await open(name, 390, 844)
  for (const width of [390, 820, 821, 1180, 1800, 2560]) {
    await page.size(width, 800, false)
    await frame()
    if (await evaluate('document.documentElement.scrollWidth') > width) wide.push(width)
  }
  check(`${name}: nothing is wider than the window`, wide.join(', '))
  const { nodes } = await page.call('Accessibility.getFullAXTree')
  const controls = ['button', 'searchbox', 'combobox', 'textbox', 'grid', 'link']
  const nameless = nodes.filter(it => !it.ignored && controls.includes(it.role?.value) && !it.name?.value)
  const lanes = nodes.find(it => it.properties?.some(({ value }) => value?.value === 'timeline'))
  check(`${name}: each control has a name`, nameless.map(it => it.role.value).join(', ')
    || (lanes?.name?.value.startsWith('Over time') ? null : 'the lanes'))
}

// ---- the pointer

const ended = () => evaluate('pimReport.view.ended')
const isWithin = async () => { const [from, to] = await view(); return from >= 0 && to <= await ended() && from < to }

async function pointer() {
  await open('chain')
  const lanes = await box('lanes'), x = lanes.x + lanes.width * .6, y = lanes.y + 50
  const first = await view(), span = ([from, to]) => to - from
  await wheel(x, y, -300)
  const near = await view()
  check('the wheel zooms in', span(near) < span(first) ? null : `${near}`)
  const at = ([from, to]) => evaluate(`${from} + (${to} - ${from}) * (${x} - ${lanes.x} - pimReport.lanes.side)
    / (pimReport.lanes.width - pimReport.lanes.side)`)
  const moved = Math.abs(await at(near) - await at(first)) / span(near)
  check('what is under the pointer stays there', moved < .01 ? null : `${moved}`)
  await wheel(x, y, 100, 0, SHIFT)
  const [later] = await view()
  check('the wheel with Shift moves', later > near[0] ? null : `${later}`)
  await wheel(x, y, 0, -100)
  check('a wheel across moves', (await view())[0] < later ? null : 'it does not')
  const [before] = await view()
  await dragged(x, y, x - 120)
  check('a drag moves', (await view())[0] > before ? null : `${await view()}`)
  for (let i = 0; i < 3; i++) await wheel(x, y, 3000)
  check('it zooms to all, and no further', differs(await view(), [0, await ended()]))
  for (let i = 0; i < 4; i++) await wheel(x, y, -3000)
  check('it zooms to 200 ns, and no further', Math.abs(span(await view()) - 200) < 1 ? null : `${await view()}`)
  await wheel(x, y, 0, 1e9)
  check('it moves to the end, and no further', await isWithin() ? null : `${await view()}`)
}

/** A click into the strip of all shows that time. */
async function strip() {
  await open('pool_of_workers')
  await evaluate('pimReport.view.zoom(.1)')
  const { x, y, width } = await box('overview'), lanes = await box('lanes')
  const left = lanes.x + await evaluate('pimReport.lanes.side'), time = .75 * await ended()
  await page.mouse(left + .75 * (x + width - left), y + 10, 'mousePressed', 'mouseReleased')
  await frame()
  const [from, to] = await view(), far = Math.abs((from + to) / 2 - time) / await ended()
  check('a click into the strip shows that time', far < .01 ? null : `${from} to ${to}`)
}

/** An arrow leads from the chosen wait through the lanes between to what owns the mutex. */
async function arrow() {
  await open('chain')
  const isThere = await evaluate(`(() => {
    const { lanes } = pimReport, place = lanes.layout.places.find(it => it.lane.name === 'vision')
    const x = Math.round(lanes.x(2_100_000)) - 2, y = place.y + 4 + 24 - lanes.top, { ratio } = lanes
    const { data } = lanes.ink.getImageData(x * ratio, y * ratio, 6 * ratio, 1)
    return Array.from(data).some((it, i) => i % 4 === 0 && Math.max(it, data[i + 1], data[i + 2]) < 60)
  })()`)
  check('an arrow leads to the owner', isThere ? null : 'there is none')
}

async function dragged(x, y, to) {
  const send = (type, x, buttons) => page.call('Input.dispatchMouseEvent',
    { type, x, y, button: 'left', buttons, clickCount: 1 })
  await send('mousePressed', x, 1)
  for (let i = 1; i <= 6; i++) await send('mouseMoved', x + (to - x) * i / 6, 1)
  await send('mouseReleased', to, 0)
  await frame()
}

async function pinched() {
  await open('chain', 390, 844)
  await evaluate("document.getElementById('time').scrollIntoView()")
  await clicked('whole')
  const [from, to] = await view(), { x, y } = await box('canvas'), middle = x + 240
  const points = apart => [-.5, .5].map((side, id) => ({ x: middle + side * apart, y: y + 60, id }))
  const touch = (type, touchPoints) => page.call('Input.dispatchTouchEvent', { type, touchPoints })
  await touch('touchStart', points(60))
  for (let i = 1; i <= 8; i++) await touch('touchMove', points(60 + 15 * i))
  await touch('touchEnd', [])
  await frame()
  const [low, high] = await view(), times = (to - from) / (high - low)
  check('two fingers zoom', times > 2.5 && times < 3.5 ? null : `${times} times`)
}

/** Pointing says which thread, for which mutex, owned by which, since when and where. */
async function pointing() {
  await open('chain')
  const { x, y } = await evaluate(`(({ lanes, layout }) => {
    const place = pimReport.lanes.layout.places.find(it => it.lane.name === 'control')
    const wait = place.lane.waits[0], box = document.getElementById('canvas').getBoundingClientRect()
    return { x: box.x + pimReport.lanes.x((wait.begin + wait.end) / 2), y: box.y + place.bars + 24 + 8 }
  })(pimReport)`)
  await page.mouse(x, y)
  await frame()
  const said = await text('said')
  check('pointing at a wait', differs(said.split('; '), [
    'control (90) waits for log_lock (INHERIT)', '8.90 ms from 0.002100 s at log.c:44 (log_write)',
    'owned by logger (10) since 0.001100 s at log.c:44 (log_write)', 'logger waits for disk_lock of storage',
    'held up for 8.40 ms: disk_lock passes too little on', 'meanwhile vision (50) ran for 7.50 ms']))
  const tip = await all('#tip.on > *', 'it.textContent')
  check('the tip says the same', differs(tip.join('; '), said))
  await page.mouse(x, y, 'mousePressed', 'mouseReleased')
  await frame()
  check('a click focuses', await evaluate("pimReport.focused?.bar.lane.name === 'control'") ? null : 'nothing')
}

/** At random zooms, what is said at a pixel is there at that time. */
async function pixels(name) {
  const wrong = await evaluate(`(() => {
    const { view, lanes, draw, recording } = pimReport, wrong = []
    let seed = 7
    const random = () => (seed = (seed * 48271) % 2147483647) / 2147483647
    for (let i = 0; i < 60; i++) {
      const from = random() * recording.ended * .9
      view.show(from, from + recording.ended * 10 ** (-3 * random()))
      draw()
      for (let n = 0; n < 20; n++) {
        const x = lanes.side + random() * (lanes.width - lanes.side), y = 24 + random() * (lanes.height - 24)
        const bar = lanes.barAt(x, y)
        if (bar && (bar.end < lanes.time(x - 3) || bar.begin > lanes.time(x + 3))) wrong.push([x, y])
        if (bar && bar.lane !== lanes.laneAt(y).lane) wrong.push([x, y, 'lane'])
      }
    }
    return wrong
  })()`)
  check(`${name}: what is said at a pixel is there`, wrong.length ? JSON.stringify(wrong.slice(0, 3)) : null)
}

/** Each inversion has a pixel of the accent, however far it is zoomed out. */
async function accents(name) {
  await clicked('whole')
  const lost = await evaluate(`(() => {
    const { lanes, recording, draw } = pimReport
    draw()
    const ink = lanes.ink, ratio = lanes.ratio, lost = []
    const isAccent = ([r, g, b]) => r > 150 && r - b > 60 && r - g > 20
    for (const { lane, bars } of lanes.layout.places) for (const it of lane.late.of) {
      const from = Math.max(lanes.side, Math.floor(lanes.x(it.begin)) - 1), y = bars + 24 - lanes.top
      const to = Math.min(lanes.width - 1, Math.ceil(lanes.x(it.end)) + 1), row = it.wait.row * (lanes.bar + 2)
      if (y + row + lanes.bar > lanes.height) continue
      const width = Math.max(1, to - from) * ratio
      const { data } = ink.getImageData(from * ratio, (y + row) * ratio, width, lanes.bar * ratio)
      const pixels = Array.from({ length: data.length / 4 }, (_, i) => data.slice(4 * i, 4 * i + 3))
      if (!pixels.some(isAccent)) lost.push([lane.name, it.begin])
    }
    return lost
  })()`)
  check(`${name}: each inversion is seen`, lost.length ? JSON.stringify(lost.slice(0, 3)) : null)
}

// ---- the keyboard

async function keys() {
  await open('chain')
  await evaluate("document.getElementById('lanes').focus()")
  const said = () => text('said')
  await pressed('ArrowRight')
  check('an arrow focuses the chosen wait', (await said()).startsWith('control (90) waits') ? null : await said())
  await pressed('ArrowRight')
  check('an arrow goes to the next bar', (await said()).startsWith('control (90) owns log_lock') ? null : await said())
  await pressed('ArrowLeft')
  check('an arrow goes back', (await said()).startsWith('control (90) waits') ? null : await said())
  await pressed('ArrowDown')
  check('an arrow goes to another lane', /^(control|vision)/.test(await said()) ? await said() : null)
  await pressed('Enter')
  const [from, to] = await view()
  const [begin, end] = await evaluate('[pimReport.focused.bar.begin, pimReport.focused.bar.end]')
  check('Enter zooms to the bar', from <= begin && end <= to ? null : `${from} to ${to}`)
  await pressed('Escape')
  check('Escape leaves it', await evaluate('pimReport.focused === null') ? null : 'it does not')
  for (const [key, is] of [['0', (a, b, [from, to], all) => from === 0 && to === all], ['+', (a, b) => b < a],
    ['-', (a, b) => b > a], ['w', (a, b) => b < a], ['s', (a, b) => b > a],
    ['w', (a, b) => b < a], ['d', (a, b, now, all, before) => now[0] > before[0]],
    ['a', (a, b, now, all, before) => now[0] < before[0]]]) {
    const before = await view()
    await pressed(key)
    const now = await view()
    const done = is(before[1] - before[0], now[1] - now[0], now, await ended(), before)
    check(`the key ${key}`, done && await isWithin() ? null : `${before} to ${now}`)
  }
  await pressed('/')
  check('/ goes to the filter', await evaluate("document.activeElement.id") === 'filter' ? null : 'it does not')
}

/** The page can be used by Tab and Enter alone: the findings, the buttons, the lanes. */
async function tabs() {
  await open('pool_of_workers')
  const met = new Set()
  await evaluate('document.body.focus()')
  for (let i = 0; i < 24; i++) {
    await page.key('Tab')
    met.add(await evaluate("(it => it.id || it.tagName)(document.activeElement)"))
  }
  const missing = ['filter', 'kind', 'TR', 'lanes', 'in', 'out', 'whole', 'worst', 'SUMMARY'].filter(it => !met.has(it))
  check('Tab goes to each control', missing.join(', '))
}

// ---- the table

async function table() {
  await open('pool_of_workers')
  const { findings } = reportOf('pool_of_workers'), cells = name => all(`tbody td.${name}`, 'it.textContent')
  const heads = await all('thead th', 'it.className.split(" ")[0]')
  const numbers = { times: it => it.times, worst: it => it.worst, total: it => it.total }
  for (const [name, of] of Object.entries(numbers)) {
    await evaluate(`document.querySelectorAll('thead button')[${heads.indexOf(name)}].click()`)
    const sorted = findings.map(of).sort((a, b) => b - a)
    const order = await evaluate(`[...document.querySelectorAll('#rows tbody tr')].map(row =>
      pimReport.recording.findings.find(it => it.row === row).${name})`)
    check(`sorted by ${name}`, differs(order, sorted))
  }
  await typed('filter', 'JANITOR claim', 'input')
  check('the filter', differs(await cells('what'), ['3 mutexes of pool.c:19 (pool_open)']))
  check('the filter says how many it leaves', differs(await text('shown'), `1 of ${findings.length}`))
  await typed('filter', 'nobody', 'input')
  const none = await all('#rows .none', 'it.textContent')
  check('a filter that leaves nothing', differs(none, ['Nothing is left by this filter.']))
  await typed('filter', '', 'input')
  await typed('kind', 'held up', 'change')
  check('the kind', differs(await cells('kind'), ['held up', 'held up']))
  await typed('kind', '', 'change')
  await evaluate("document.querySelectorAll('thead button')[0].click()")
  await evaluate("document.querySelector('#rows tbody tr').focus()")
  await pressed('ArrowDown')
  const chosen = await evaluate('pimReport.recording.findings.indexOf(pimReport.chosen)')
  check('an arrow chooses the next finding', differs(chosen, 1))
  await pressed('ArrowUp')
  const spot = () => text('spot')
  const first = await spot()
  await pressed('n')
  const second = await spot()
  await pressed('p')
  check('n and p go to the next wait and back', first === await spot() && /^2 of 3/.test(second) ? null : second)
}

// ---- what it takes, and how it looks

/** Draws a large recording: what is counted doesn't depend on how busy the machine is. */
async function frames() {
  await open('large', 2560, 1300)
  const most = await evaluate(`(() => {
    const { view, draw } = pimReport, real = CanvasRenderingContext2D.prototype.fillRect
    let calls = 0, most = 0
    CanvasRenderingContext2D.prototype.fillRect = function (...it) { calls++; return real.apply(this, it) }
    view.whole()
    for (let i = 0; i < 60; i++) { calls = 0; draw(); most = Math.max(most, calls); view.zoom(.8) }
    CanvasRenderingContext2D.prototype.fillRect = real
    return most
  })()`)
  const filled = await evaluate(`(() => {
    const { lanes, view, draw } = pimReport, { places } = lanes.layout
    view.whole()
    draw()
    const place = places.find(it => it.lane.name === 'low'), ratio = lanes.ratio
    const y = (place.bars + lanes.bar - 6 + 24 - lanes.top) * ratio, wide = lanes.width - lanes.side
    const { data } = lanes.ink.getImageData(lanes.side * ratio, y, wide * ratio, 1)
    const isOwned = i => data[i] === 0xb3 && data[i + 1] === 0xc1 && data[i + 2] === 0xce
    return Array.from({ length: data.length / 4 }, (_, i) => 4 * i).filter(isOwned).length / wide
  })()`)
  check('bars that are narrower than a pixel are drawn', filled > .9 ? null : `${filled} of the pixels`)
  check('a frame of 65,000 facts', most < 30_000 && most > 100 ? null : `${most} rectangles`)
}

async function screenshots() {
  for (const name of names) for (const [width, height] of SIZES) for (const dark of [false, true]) {
    await open(name, width, height, dark)
    await page.shot(`${shots}/${name}-${width}${dark ? '-dark' : ''}.png`)
    if (width > 800) continue
    await evaluate("document.getElementById('time').scrollIntoView()")
    await page.shot(`${shots}/${name}-${width}${dark ? '-dark' : ''}-below.png`)
  }
}

const failures = () => page.heard.flatMap(({ method, params }) => {
  if (method === 'Runtime.exceptionThrown') {
    return [params.exceptionDetails.exception?.description ?? params.exceptionDetails.text]
  }
  if (method === 'Log.entryAdded' && params.entry.level === 'error') return [params.entry.text]
  const url = method === 'Network.requestWillBeSent' ? params.request.url : 'data:'
  return /^(file|data|about|blob):/.test(url) ? [] : [url]
})

for (const name of names.filter(name => name !== 'large')) {
  await contents(name)
  if (['chain', 'pool_of_workers', 'recorded_mix_none'].includes(name)) {
    await pixels(name)
    await accents(name)
  }
}
for (const name of ['chain', 'pool_of_workers']) await sizes(name)
for (const part of [pointer, strip, arrow, pinched, pointing, keys, tabs, table, frames]) await part()
await pixels('large')
if (shots) await screenshots()
check('no request, no error', failures().join('; '))
await page.close()
process.exit() // a timer of the page's end would keep it
