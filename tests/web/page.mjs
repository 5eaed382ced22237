// page.mjs CHROMIUM PAGE FOLDER [SHOTS]: uses the page as a reader does, and prints what it shows.
//
// FOLDER has input.json: the examples' names, texts to type, and files to open. Saved pictures go there
// too. A line of JSON is printed for each thing that is shown: its name and the value. With SHOTS, a
// folder, screenshots of three sizes go there.
import { copyFileSync, existsSync, readFileSync, renameSync } from 'node:fs'
import { HANGS, Page, TWO_FRAMES, pause, until } from './browser.mjs'
import { edited } from './edits.mjs'

const [program, address, folder, shots] = process.argv.slice(2)
const input = JSON.parse(readFileSync(`${folder}/input.json`, 'utf8'))
const page = await Page.open(program)
const show = (name, value) => console.log(JSON.stringify([name, value]))
const text = id => page.evaluate(`document.getElementById('${id}').innerText.trim()`)
const report = () => page.evaluate(`[...document.querySelectorAll('#report span')]
  .filter(it => it.checkVisibility({ visibilityProperty: true })).map(it => it.textContent + '\\n').join('')`)
const all = (query, of) => page.evaluate(`[...document.querySelectorAll('${query}')].map(it => ${of})`)

/** Waits until the page has drawn what the worker answered, or what was chosen: that takes some frames. */
const settled = () => page.evaluate(`(async () => {
  const isBusy = () => document.getElementById('main').getAttribute('aria-busy') === 'true'
    || !document.getElementById('start').hidden && !document.querySelector('#start mark')
  const begin = Date.now()
  while (isBusy() && Date.now() - begin < ${HANGS}) await new Promise(done => setTimeout(done, 5))
})()`)

async function pressed(...key) {
  await page.key(...key)
  await settled()
}

async function clicked(id) {
  await page.evaluate(`document.getElementById('${id}').click()`)
  await settled()
}

async function choose(name) {
  await page.evaluate(`{ const it = document.getElementById('examples'); it.value = '${name}'; it.onchange() }`)
  await settled()
}

async function typed(whole) {
  await page.evaluate(`{ const it = document.getElementById('text'); it.focus(); it.select() }`)
  await page.type(whole)
  await settled()
}

/** What the lanes show: each priority with its lane, its steps and its number; each bar. */
const lanes = async () => ({
  prios: await all('#time .prio', '[+it.dataset.lane, +it.dataset.from, +it.dataset.to, it.textContent]'),
  bars: await all('#time .owns, #time .waits',
    '[it.classList[0], +it.dataset.lane, +it.dataset.mutex, +it.dataset.from, +it.dataset.to]'),
  rows: await all('#time .owns, #time .waits', '+it.getAttribute("y")'),
  made: await all('#time .made', '[it.tagName, +it.dataset.lane, it.dataset.tip]'),
})

async function firstVisit() {
  await page.call('Performance.enable', { timeDomain: 'threadTicks' })
  await page.size(1280, 800, false)
  await page.load(address)
  await settled()
  show('start: marked lines', await all('#start mark', 'it.textContent'))
  show('start: after step 2', await all('#start .step', 'it.textContent'))
  show('start: lanes of task 1', await all('#start .prio[data-lane="1"]', 'it.textContent'))
  await page.evaluate(`document.querySelector('#inversion_avoided button').click()`)
  await settled()
  show('start: opened', [await text('verdict'), await report()])
}

async function examples() {
  for (const name of input.examples) {
    await choose(name)
    show(`example ${name}`, [await report(), await lanes(), !!(await text('about-example'))])
    show(`replies of ${name}`, await all('#replies > div', 'it.textContent'))
    show(`steps of the report of ${name}`, await all('#report span[data-step]', '+it.dataset.step'))
  }
}

/** What the graph shows: the words of its boxes; its arrows, from box to box, with what boosts, whether one is dashed,
 * and its place in a queue; and the boxes that overlap others or aren't in the picture. */
const GRAPH = `(() => {
  const number = (it, name) => +it.getAttribute(name)
  const said = it => [...it.querySelectorAll('text')].map(one => one.textContent)
  const boxes = [...document.querySelectorAll('#graph g[data-tip]')].map(it => {
    const [x, y, w, h] = ['x', 'y', 'width', 'height'].map(name => number(it.firstElementChild, name))
    return { tip: it.dataset.tip, said: said(it),
      left: x - .75, top: y - .75, right: x + w + .75, bottom: y + h + .75 } })
  const isNear = (a, b) => Math.abs(a - b) < .5, narrow = innerWidth <= 820
  const [front, back, low, high] = narrow ? ['top', 'bottom', 'left', 'right'] : ['left', 'right', 'top', 'bottom']
  const boxAt = (side, along, across) =>
    boxes.find(it => isNear(it[side], along) && isNear((it[low] + it[high]) / 2, across))?.said[0] ?? 'nothing'
  const places = [...document.querySelectorAll('#graph text')].filter(it => !it.closest('[data-tip]'))
  const isAt = (it, x, y) => isNear(number(it, 'x'), x - 5) && isNear(number(it, 'y'), y - 5)
  const nth = (x, y) => places.find(it => isAt(it, x, y))?.textContent ?? ''
  const arrows = [...document.querySelectorAll('#graph path[marker-end]')].map(it => {
    const [a, b, ...rest] = it.getAttribute('d').match(/[-.0-9]+/g).map(Number), [x, y] = rest.slice(-2)
    const ends = narrow ? [[b, a], [y, x]] : [[a, b], [x, y]]
    return [boxAt(front, ...ends[0]), boxAt(back, ends[1][0] - 6, ends[1][1]),
      it.getAttribute('marker-end').slice(5, -1), it.style.strokeDasharray !== '', nth(a, b)] })
  const { style } = document.querySelector('#graph > div')
  const [wide, deep] = ['width', 'height'].map(name => parseFloat(style[name]))
  const isOut = it => it.left < 0 || it.top < 0 || it.right > wide || it.bottom > deep
  const wrong = boxes.filter((it, i) => isOut(it) || boxes.slice(0, i).some(one =>
    one.left < it.right && it.left < one.right && one.top < it.bottom && it.top < one.bottom))
  return { boxes: boxes.map(it => [it.tip, ...it.said.slice(1)]), arrows, wrong: wrong.map(it => it.tip) } })()`

async function graphs() {
  for (const [name, { whole, step, wide }] of Object.entries(input.graphs)) {
    await page.size(wide, 844, false)
    await typed(whole)
    await page.evaluate(`{ const it = document.getElementById('slider'); it.value = ${step}; it.oninput() }`)
    await settled()
    show(`graph ${name}`, { ...await page.evaluate(GRAPH), why: await all('#why li', 'it.textContent') })
  }
  await page.size(1280, 800, false)
}

async function typing() {
  await typed('')
  for (const line of input.lines) await page.type(line)
  await settled()
  show('typed line by line', [await text('verdict'), await report()])
  for (const [name, whole] of Object.entries(input.texts)) {
    await typed(whole)
    const bad = await all('#lines .bad', '+it.dataset.line')
    const slider = await page.evaluate(`+document.getElementById('slider').max`)
    const isShown = await page.evaluate(`['time', 'graph'].some(id => document.getElementById(id).firstElementChild.checkVisibility())`)
    show(`typed ${name}`, [await text('verdict'), bad, await report(), slider, isShown])
  }
  for (const [name, whole] of Object.entries(input.refused)) {
    await typed(whole)
    show(`refused ${name}`, await all('#why li', 'it.textContent'))
  }
  for (const [name, whole] of Object.entries(input.pictures)) {
    await typed(whole)
    show(`picture ${name}`, [await report(), (await lanes()).prios])
  }
}

/** What the lanes look like: places in columns, and heights as priorities. */
const DETAILS = `(() => {
  const all = (query, of, where = document) => [...where.querySelectorAll(query)].map(of)
  const [number, round] = [(it, name) => +it.getAttribute(name), n => Math.round(100 * n) / 100]
  const col = number(document.querySelector('#lanes .pick'), 'width'), places = new Set()
  const place = (it, name) => round(number(it, name) / col)
  const [, ...lanes] = document.querySelectorAll('#lanes svg > g')
  const floors = lanes.map(it => number(it.querySelector('[style*="--grid"]'), 'y1') - .5)
  const boosts = lanes.flatMap((lane, i) => all('.boost', it => ({ it, task: i + 1 }), lane))
  // A boost by so much is so high: of the first one, which is by 10.
  const scale = boosts.length ? number(boosts[0].it, 'height') / 10 : 1
  const prio = (lane, y) => round((floors[lane] - y) / scale)
  const points = (d, lane) => { const [, x, y, rest] = /^M(\\S+) ([^H]+)(.*)$/.exec(d)
    const found = [[round(x / col), prio(lane, y)]]
    for (const [, to, next] of rest.matchAll(/H([^V]+)(?:V([^H]+))?/g)) if (next) found.push([round(to / col), prio(lane, next)])
    return found }
  const levels = (lane, style) => all('path[style*="' + style + '"]', it => it.getAttribute('d'), lane)
    .flatMap(d => [...d.matchAll(/M(\\S+) ([^H]+)H([^M]+)/g)].map(([, ...at]) => at.map(Number)))
  const above = lanes.flatMap((lane, i) => all('.prio', it => round(number(it, 'y') - floors[i] + scale * parseInt(it.textContent)), lane))
  return {
    names: all('#names text', it => it.textContent),
    numbers: all('#lanes text[y="12"]', it => [+it.textContent, place(it, 'x')]),
    picks: all('#lanes .pick', it => [+it.dataset.step, place(it, 'x')]),
    now: all('#lanes rect[style*="--now-fill"]', it => [place(it, 'x'), place(it, 'width')]),
    rejected: all('#lanes rect[style*="--bad-fill"]', it => [place(it, 'x'), place(it, 'width')]),
    boosts: boosts.map(({ it, task }) => [task, place(it, 'x'), place(it, 'width'), prio(task - 1, number(it, 'y'))]),
    bases: lanes.flatMap((lane, i) => levels(lane, 'dasharray:2 3').map(([, y]) => prio(i, y))),
    thick: lanes.map(lane => levels(lane, 'stroke-width:2.5').map(([x, , to]) => [round(x / col), round(to / col)])),
    lines: lanes.map((lane, i) => points(lane.querySelector('[style*="stroke-width:1.75"]').getAttribute('d'), i)),
    above: [...new Set(above)].sort(), tall: scale * 99,
    // A lane ends where its name does.
    beside: all('#names line', (it, i) => it.getBoundingClientRect().y)
      .map((y, i) => Math.abs(y - lanes[i].querySelector('[style*="--rule"]').getBoundingClientRect().y) < 1),
    graph: Math.max(...all('#graph g[data-tip]', it => it.getBoundingClientRect().right))
      <= document.getElementById('graph').getBoundingClientRect().right,
  } })()`

async function details() {
  await choose('boost_through_a_chain')
  show('details', await page.evaluate(DETAILS))
  await page.evaluate('document.activeElement.blur()')
  await pressed('End')
  show('details at the end', (await page.evaluate(DETAILS)).names)
  await choose('recording_rejected')
  show('details, rejected', (await page.evaluate(DETAILS)).rejected)
  await typed('pim 1\ntask 1 85\ntask 2 95\n')
  show('numbers of 85 and 95', await page.evaluate(`[...document.querySelectorAll('#lanes .prio')].map(it => {
    const line = it.closest('g').querySelector('[style*="stroke-width:1.75"]').getAttribute('d')
    return Math.round(it.getAttribute('y') - /^M0 ([^H]+)/.exec(line)[1]) })`))
  await typed(input.twice)
  show('two boosts', (await page.evaluate(DETAILS)).boosts)
  await typed(input.rows)
  show('rows', await lanes())
  await choose('recording_rejected')
  show('examples', [await all('#examples option', '[it.value, it.text]'), await text('about-example')])
}

/** What the page says where its worker fails in a call, and where the worker itself fails; and behind it. */
async function failures() {
  const source = `window.Worker = class extends Worker {
    postMessage(it) { super.postMessage(window.spoiled ? window.spoiled(it) : it) } }`
  const { identifier } = await page.call('Page.addScriptToEvaluateOnNewDocument', { source })
  await page.load(address)
  await choose('ceilings')
  const said = []
  for (const spoiled of [`it => ({ ...it, call: 'nothing' })`, '() => null', 'null']) {
    await page.evaluate(`window.spoiled = ${spoiled}`)
    await typed('pim 1\n')
    said.push(await text('verdict'))
  }
  show('failures', said)
  await page.call('Page.removeScriptToEvaluateOnNewDocument', { identifier })
  await page.load(address)
  page.pipe.heard = page.heard.filter(it => !FAILURES.includes(it.method))
}

/** Gives an element other texts at random. Returns what is wrong first, or null. */
const FILLS = `(() => { ${input.fill}
  let seed = 5
  const draw = n => (seed = seed * 48271 % 2147483647) % n, to = document.createElement('div')
  const textOf = key => '<i>' + key + '</i>', said = () => [...to.children].map(it => it.textContent).join()
  const some = () => Array.from({ length: draw(12) }, () => 'abcdefghijkl'[draw(12)])
  const edited = old => { const keys = [...old]; keys.splice(draw(keys.length + 1), draw(3), ...some().slice(0, 2)); return keys }
  const inBoth = (one, other) => { const rest = [...other]
    return one.filter(key => rest.includes(key) && rest.splice(rest.indexOf(key), 1)).length }
  for (let round = 0, keys = []; round < 3000; round++) {
    const old = keys, before = [...to.children], most = [Infinity, 95, 76, 1][draw(4)]
    keys = draw(3) ? edited(old) : some()
    let whole = fill(to, keys.map(textOf), most, keys), rounds = 1
    const made = [...to.children].filter(it => !before.includes(it)).length, stay = to.childElementCount - made
    if (stay !== inBoth(old, keys)) return ['stay', old, keys, stay]
    // An element has 8 characters, and is as much as 38: of 76 there are two, and of 95 three.
    const wanted = Math.min(keys.length - stay, Math.ceil(most / 38))
    if (made !== wanted || whole !== (made + stay === keys.length)) return ['made', old, keys, most, made, whole]
    for (; !whole; rounds++) whole = fill(to, keys.map(textOf), most, keys)
    if (said() !== keys.join() || to.keys.join() !== keys.join()) return ['said', old, keys, said()]
    if (rounds > keys.length + 1) return ['rounds', rounds]
  }
  return null })()`

async function fills() { show('elements that are filled in', await page.evaluate(FILLS)) }

/** Shows what stands at the left edge of the lanes, where stretches began left of the view. */
async function leftEdge() {
  const edge = () => page.evaluate(`(() => {
    const { left, right } = document.getElementById('time').getBoundingClientRect()
    const begin = Math.max(left, document.getElementById('names').getBoundingClientRect().right)
    return [...document.querySelectorAll('#names .edge')].filter(it => {
      const box = it.getBoundingClientRect()
      return box.left >= begin && box.left < begin + 10 && box.right <= right && box.top < it.closest('#time')
        .getBoundingClientRect().bottom }).map(it => [+it.dataset.lane, it.textContent]) })()`)
  // Words of the lanes on which those of the left edge are.
  const covered = () => page.evaluate(`(() => {
    const boxes = [...document.querySelectorAll('#names .edge, #names [pointer-events]')].map(it => it.getBoundingClientRect())
    return [...document.querySelectorAll('#lanes text')].filter(it => getComputedStyle(it).visibility === 'visible').filter(it => {
      const box = it.getBoundingClientRect()
      return boxes.some(one => one.left < box.right && box.left < one.right && one.top < box.bottom - 2 && box.top < one.bottom - 2)
    }).map(it => it.textContent) })()`)
  const scrolledTo = async left => {
    await page.evaluate(`document.getElementById('time').scrollLeft = ${left}`)
    await page.evaluate(TWO_FRAMES)
    await settled()
    return edge()
  }
  for (const [name, whole] of Object.entries(input.boosts)) {
    await typed(whole)
    const end = [await edge(), await all('#names [pointer-events]', 'it.textContent')]
    const places = [], under = []
    for (const left of input.lefts) {
      places.push(await scrolledTo(left))
      under.push(...await covered())
    }
    show(`the left edge, ${name}`, [...end, places])
    show(`words under the left edge, ${name}`, under)
    await scrolledTo(0)
    show(`words that are shown again, ${name}`,
      await page.evaluate(`[...document.querySelectorAll('#lanes text')].every(it => getComputedStyle(it).visibility === 'visible')`))
  }
}

/** Shows which replies of long lines are cut or covered on a narrow page, and whether the caret is. */
async function narrowReplies() {
  await page.size(390, 844, false)
  await page.load(`${address}#trace=${encodeURIComponent(input.narrow)}`)
  await settled()
  const seen = () => page.evaluate(`(() => {
    const view = document.getElementById('editor').getBoundingClientRect(), range = document.createRange()
    const texts = [...document.querySelectorAll('#lines > div')]
    return [...document.querySelectorAll('#replies > div')].flatMap((line, i) => {
      const reply = line.firstElementChild, box = reply?.getBoundingClientRect()
      if (!reply) return []
      range.selectNodeContents(texts[i])
      const { right, top } = range.getBoundingClientRect()
      const isInView = box.left > view.left + 46 && box.right <= view.right + .5
        && reply.scrollWidth <= reply.clientWidth && Math.abs(box.top - top) < 6
      const isOpaque = !/rgba\\(.*, 0(\\.\\d+)?\\)$/.test(getComputedStyle(reply).backgroundColor)
      return [[reply.textContent, isInView && isOpaque, right <= box.left]] }) })()`)
  const begin = await seen()
  await page.evaluate(`{ const it = document.getElementById('editor'); it.scrollLeft = it.scrollWidth }`)
  show('replies at 390 pixels', [begin, (await seen()).map(it => it.slice(1))])
  await page.evaluate(`{ const it = document.getElementById('text'); document.getElementById('editor').scrollLeft = 0
    it.focus(); const end = it.value.indexOf('\\n', it.value.indexOf('unlock 1 =')) - 1; it.setSelectionRange(end, end); it.onclick() }`)
  await settled()
  await pressed('ArrowRight')
  await page.evaluate(TWO_FRAMES)
  const line = input.narrow.split('\n').findIndex(it => /unlock 1 =/.test(it))
  show('the caret at 390 pixels', await page.evaluate(`(() => {
    const range = document.createRange(), reply = document.querySelectorAll('#replies > div')[${line}].firstElementChild
    range.selectNodeContents(document.querySelectorAll('#lines > div')[${line}])
    return range.getBoundingClientRect().right <= reply.getBoundingClientRect().left })()`))
  await page.size(1280, 800, false)
}

async function stepping() {
  const said = () => text('said')
  await choose('boost_through_a_chain')
  await page.evaluate('document.activeElement.blur()')
  const seen = [await said()]
  for (const key of ['ArrowRight', 'ArrowLeft', 'ArrowLeft', 'Home', 'End']) {
    await pressed(key)
    seen.push(await said())
    if (key === 'Home') show('graph at the start', [await text('when'), (await page.evaluate(GRAPH)).arrows])
  }
  await page.evaluate(`{ const it = document.getElementById('slider'); it.value = 6; it.oninput() }`)
  await settled()
  show('stepping', [...seen, await said()])
  show('why', await all('#why li', 'it.textContent'))
  show('graph', (await all('#graph g[data-tip]', 'it.dataset.tip')).sort())
  show('now in the trace', await all('#lines .now', '+it.dataset.line'))
  for (const id of ['on', 'on', 'back']) await clicked(id)
  show('the buttons', await said())
  show('arrows', await all('#graph path[marker-end]', 'it.getAttribute("marker-end")'))
  await clicked('back')
  show('now in the report', await all('#report .now', 'it.textContent'))
  const { x, y } = await page.evaluate(`(() => {
    const it = [...document.querySelectorAll('.boost')].find(it => it.dataset.tip.includes('task 3 at 90'))
    const box = it.getBoundingClientRect()
    return { x: box.x + box.width * .75, y: box.y + box.height / 2 } })()`)
  await page.mouse(x, y)
  show('tip', await text('tip'))
  await page.mouse(x, y, 'mousePressed', 'mouseReleased')
  await settled()
  show('a click in the lanes', await said())
  await page.evaluate(`{ const it = document.getElementById('text'); it.focus(); it.setSelectionRange(0, 0);
    it.selectionStart = it.selectionEnd = it.value.indexOf('2 lock 1'); it.onclick() }`)
  await settled()
  show('the caret', await said())
}

async function files() {
  const { root } = await page.call('DOM.getDocument')
  const { nodeId } = await page.call('DOM.querySelector', { nodeId: root.nodeId, selector: '#file' })
  await page.call('DOM.setFileInputFiles', { nodeId, files: [`${folder}/opened.pim`] })
  await verdict(/accepted 1$/)
  await settled()
  show('a file opened', [await text('verdict'), await report()])
  await page.evaluate(`{ const data = new DataTransfer()
    data.items.add(new File([${JSON.stringify(input.dropped)}], 'dropped.pim'))
    document.body.dispatchEvent(new DragEvent('drop', { dataTransfer: data, bubbles: true, cancelable: true })) }`)
  await verdict(/rejected at step 1$/)
  await settled()
  // The address follows later.
  await until('the address', () => page.evaluate(
    `decodeURIComponent(location.hash) === '#trace=' + document.getElementById('text').value`))
  show('a file dropped', [await text('verdict'), await report()])
  show('the caret behind a file', await page.evaluate(`{ const it = document.getElementById('text')
    ;[it.selectionStart === it.value.length, it.selectionEnd === it.value.length] }`))
  const hash = await page.evaluate('location.hash')
  await page.load(address + hash)
  await settled()
  show('the address', [hash, await text('verdict'), await page.evaluate(`document.getElementById('text').value`)])
  await page.call('Browser.setDownloadBehavior', { behavior: 'allow', downloadPath: folder, eventsEnabled: true })
  await saved('svg')
  await saved('png')
  await choose('inversion_avoided')
  renameSync(`${folder}/trace.svg`, `${folder}/first.svg`)
  renameSync(`${folder}/trace.png`, `${folder}/first.png`)
  const png = readFileSync(`${folder}/first.png`, 'base64')
  show('the picture saved as PNG', await page.evaluate(`(${PIXELS})('${png}')`))
  await saved('svg')
  if (shots) copyFileSync(`${folder}/trace.svg`, `${shots}/inversion.svg`)
  renameSync(`${folder}/trace.svg`, `${folder}/inversion.svg`)
  await typed(input.boosts['a waiter'])
  await saved('svg')
  renameSync(`${folder}/trace.svg`, `${folder}/boost.svg`)
  const ends = []
  for (const end of ['\r\n', '\r']) {
    await page.evaluate(`(${drop})(${JSON.stringify(input.dropped.replace(/\n/g, end))})`)
    await verdict(/rejected at step 1$/)
    ends.push(await text('verdict'))
    await choose('ceilings')
  }
  show('files with other line ends', ends)
}

/** Returns the size of a PNG, how opaque its last pixel is, and whether its pixels have several colours. */
const PIXELS = `async base64 => {
  const image = new Image()
  image.src = 'data:image/png;base64,' + base64
  await image.decode()
  const canvas = document.createElement('canvas'), { width, height } = image
  Object.assign(canvas, { width, height })
  const context = canvas.getContext('2d')
  context.drawImage(image, 0, 0)
  const { data } = context.getImageData(0, 0, width, height), pixels = new Uint32Array(data.buffer)
  return [width, height, data[data.length - 1], new Set(pixels).size > 10] }`

/** Saves the picture. The file has all its bytes once the browser says so: an empty one may be there before. */
async function saved(kind) {
  const isEnd = ({ method, params }) => method === 'Browser.downloadProgress' && params.state !== 'inProgress'
  page.pipe.heard = page.heard.filter(it => !isEnd(it))
  await page.evaluate(`document.getElementById('${kind}').click()`)
  await until(`saving ${kind}`, () => page.heard.some(isEnd))
}

/** Returns the milliseconds of CPU time that the page's own thread has taken. */
async function spent() {
  const { metrics } = await page.call('Performance.getMetrics')
  return 1000 * metrics.find(it => it.name === 'TaskDuration').value
}

const FAILURES = ['Runtime.exceptionThrown', 'Log.entryAdded']
const drop = `async text => {
  const data = new DataTransfer()
  data.items.add(new File([text], 'dropped.pim'))
  document.body.dispatchEvent(new DragEvent('drop', { dataTransfer: data, bubbles: true, cancelable: true }))
}`
/** Waits until the page says so. If it hangs, what it shows is compared, and wrong. */
const verdict = wanted => page.evaluate(`new Promise(done => { const begin = Date.now(), wait = () =>
  ${wanted}.test(document.getElementById('verdict').textContent) || Date.now() - begin > ${HANGS}
    ? done() : setTimeout(wait, 5); wait() })`)

/** Drops a text, and returns the milliseconds that the page's own thread took until all is drawn. */
async function dropped(name, wanted) {
  await page.evaluate(`window.given = ${JSON.stringify(input[name])}.join('')`)
  const begin = await spent()
  await page.evaluate(`(${drop})(given)`)
  await verdict(wanted)
  await settled()
  await page.evaluate('document.body.offsetHeight')
  return await spent() - begin
}

/** Opens traces of full size, and says how long the page took, and what it shows at the end. */
async function full() {
  show('full size: milliseconds', await dropped('full', /accepted 65536/))
  show('full size', [await text('verdict'), await text('limits')])
  await page.evaluate('document.activeElement.blur()')
  const begin = await spent()
  await pressed('End')
  show('the last step: milliseconds', await spent() - begin)
  show('a scroll in full size: milliseconds', await scrolls(20) / 20)
  await pressed('End')
  const line = await page.evaluate(`document.querySelector('#lines .now').dataset.line`)
  const last = await all('#report span', 'it.textContent')
  show('full size: the end', [(await text('said')).split(':')[0], +line, last[last.length - 1]])
  // Only the lanes near those in view are drawn.
  const { prios } = await lanes()
  await page.evaluate(`{ const it = document.getElementById('time'); it.scrollTop = it.scrollHeight }`)
  await page.evaluate(TWO_FRAMES)
  await settled()
  show('full size: lanes', { prios: [...prios, ...(await lanes()).prios] })
  await page.evaluate(`document.getElementById('time').scrollTop = 0`)
  await page.evaluate(TWO_FRAMES)
  await settled()
  show('full size: numbers that overlap', await page.evaluate(`(() => {
    const boxes = [...document.querySelectorAll('#lanes text[y="12"]')].map(it => it.getBoundingClientRect())
    const { right } = document.querySelector('#lanes > div').getBoundingClientRect()
    return boxes.filter((it, i) => i && it.left < boxes[i - 1].right || it.right > right).length })()`))
  if (shots) await page.shot(`${shots}/full-size.png`)
  await saved('svg')
  renameSync(`${folder}/trace.svg`, `${folder}/end.svg`)
  await page.evaluate(`{ const it = document.getElementById('slider'); it.value = 40000; it.oninput() }`)
  await settled()
  show('full size: the line of a step above', await isInView(40_017))
  show('full size: made', (await lanes()).made.filter(([, , tip]) => tip.startsWith('step 40000:')))
  for (const kind of ['svg', 'png']) await saved(kind)
  renameSync(`${folder}/trace.svg`, `${folder}/middle.svg`)
  renameSync(`${folder}/trace.png`, `${folder}/middle.png`)
}

/** Returns whether a line of the trace is in view. */
const isInView = n => page.evaluate(`(() => {
  const box = document.getElementById('editor').getBoundingClientRect()
  const line = document.querySelector('#lines [data-line="${n}"]')?.getBoundingClientRect()
  return !!line && line.top + line.height / 2 > box.top && line.bottom - line.height / 2 < box.bottom })()`)

/** Scrolls the trace, the report and the lanes, and returns the milliseconds that it took. */
async function scrolls(count) {
  const begin = await spent()
  await page.evaluate(`(async () => {
    for (let i = 1; i <= ${count}; i++) {
      for (const id of ['editor', 'report', 'time']) {
        const it = document.getElementById(id), side = id === 'time' ? 'Left' : 'Top'
        const size = side === 'Left' ? it.scrollWidth : it.scrollHeight
        it['scroll' + side] = size * (i * 7 % ${count}) / ${count}
      }
      await new Promise(done => requestAnimationFrame(() => requestAnimationFrame(done)))
    } })()`)
  await settled()
  return await spent() - begin
}

/** Puts the caret at the end of a line that the text area holds, and types. */
const typedAt = async (n, more) => {
  await page.evaluate(`{ const it = document.getElementById('text'), lines = document.getElementById('lines')
    const first = Math.round(parseFloat(it.style.top) / parseFloat(getComputedStyle(it).lineHeight))
    const place = it.value.split('\\n').slice(0, ${n} - first).join('\\n').length
    it.dispatchEvent(new PointerEvent('pointerdown'))
    it.focus(); it.setSelectionRange(place, place) }`)
  await page.type(more)
}

/** Edits a trace of full size at its end, its beginning and in the middle, copies it and pastes it. */
async function longEditor() {
  const begun = await spent()
  await page.evaluate(`document.getElementById('text').focus()`)
  await pressed('End', 2)
  await page.type('1 lock 1')
  await verdict(/invalid/)
  await settled()
  show('full size, typed at the end', await text('verdict'))
  for (let i = 0; i < 8; i++) await page.key('Backspace')
  await verdict(/accepted/)
  show('keys in full size: milliseconds', (await spent() - begun) / 10)
  await pressed('Home', 2)
  await page.type('x')
  await verdict(/invalid/)
  show('full size, typed at the beginning', [await text('verdict'), await all('#lines .bad', '+it.dataset.line')])
  await page.key('Backspace')
  await verdict(/accepted/)
  await page.evaluate(`{ const it = document.getElementById('slider'); it.value = 40000; it.oninput() }`)
  await settled()
  await typedAt(40_017, ' = queued 7')
  await verdict(/invalid/)
  await settled()
  show('full size, typed in the middle', [await text('verdict'), await all('#lines .bad', '+it.dataset.line')])
  // The caret is as many lines below the view, and farther than a selection is held.
  for (const lines of [1_000, 40_000]) {
    await page.evaluate(`(async () => { const it = document.getElementById('editor')
      it.scrollTop -= ${lines} * parseFloat(getComputedStyle(document.getElementById('text')).lineHeight)
      await ${TWO_FRAMES} })()`)
    await page.key('Control')
    await page.evaluate(TWO_FRAMES)
    show(`full size, Control ${lines} lines above the caret`, await isInView(40_017))
    await page.key('Backspace')
    await page.evaluate(TWO_FRAMES)
    show(`full size, a key ${lines} lines above the caret`, await isInView(40_017))
  }
  for (let i = 0; i < 9; i++) await page.key('Backspace')
  await verdict(/accepted/)
  await settled()
  await pressed('a', 2)
  const copied = await page.evaluate(`(() => { let text
    addEventListener('copy', event => { text = event.clipboardData.getData('text/plain') }, { once: true })
    document.execCommand('copy')
    return text === given })()`)
  show('full size, copied', copied)
  await page.evaluate(`{ const data = new DataTransfer(); data.setData('text/plain', given + '1 lock 1 1\\n')
    document.getElementById('text').dispatchEvent(
      new ClipboardEvent('paste', { clipboardData: data, bubbles: true, cancelable: true })) }`)
  await verdict(/invalid/)
  await settled()
  show('full size, pasted over all', [await text('verdict'), await all('#lines .bad', '+it.dataset.line')])
  await pressed('a', 2)
  await page.type('pim 1')
  await verdict(/accepted/)
  await settled()
  show('full size, typed over all', [await text('verdict'), await page.evaluate(`document.getElementById('text').value`)])
}

/** Edits texts that are a little shorter and longer than what the text area holds whole. */
async function edits() {
  for (const [steps, whole] of Object.entries(input.edited)) {
    await page.evaluate(`(${drop})(${JSON.stringify(whole)})`)
    await verdict(new RegExp(`accepted ${steps}$`))
    await settled()
    show(`edits of ${steps} steps`, await edited(page, whole, +steps))
  }
}

/** Undoes by keys and by the menu, and makes nothing again that another change took the place of. */
async function undoing() {
  const said = [], below = []
  const keep = async () => {
    await page.evaluate(TWO_FRAMES)
    await settled()
    said.push(await page.evaluate(`document.getElementById('text').value`))
    below.push((await all('#lines > div', 'it.textContent')).join('\n'))
  }
  const menu = async type => page.evaluate(`document.getElementById('text').dispatchEvent(
    new InputEvent('beforeinput', { inputType: '${type}', cancelable: true, bubbles: true }))`)
  await typed('pim 1')
  await page.type('\ntask 1 10')
  for (const key of [['z', 2], ['z', 10], ['z', 2]]) { await page.key(...key); await keep() }
  await page.type('\n')
  for (const key of [['y', 2], ['z', 2], ['y', 2]]) { await page.key(...key); await keep() }
  for (const type of ['historyUndo', 'historyRedo']) { await menu(type); await keep() }
  show('undone', said)
  show('undone, below the text area', below)
}

/** Types three characters into a line above another one, undoes them, makes them again, and undoes one in the other. */
async function undoingInLine() {
  await typed('pim 1\ntask 1 10\ntask 2 20')
  await page.evaluate(`document.getElementById('text').setSelectionRange(13, 13)`)
  for (const key of '234') await page.key(key)
  const seen = () => page.evaluate(`{ const it = document.getElementById('text'); [it.value, it.selectionStart] }`)
  const said = [await seen()]
  for (const key of 'zy') { await page.key(key, 2); said.push(await seen()) }
  await page.evaluate(`{ const it = document.getElementById('text'); it.setSelectionRange(it.value.length, it.value.length) }`)
  await page.key('5')
  await page.key('z', 2)
  said.push(await seen())
  show('undone in a line', said)
}

/** Shows where the editor is scrolled to by a step below the view, one in it and one above, and by another text. */
async function places() {
  const top = () => page.evaluate(`document.getElementById('editor').scrollTop`)
  await typed(input.long)
  const high = await page.evaluate(`document.getElementById('editor').clientHeight`), seen = []
  for (const step of [150, 149, 40]) {
    await page.evaluate(`{ const it = document.getElementById('slider'); it.value = ${step}; it.oninput() }`)
    await settled()
    seen.push(await top() + (step > 40 ? high : 0))
  }
  await page.evaluate(`(${drop})('none\\n'.repeat(300))`)
  await verdict(/line 1 is invalid/)
  await settled()
  show('places of the editor', [...seen, await top()])
}

/** Cuts, presses Enter and composes where all of a long text is selected, and types where it no longer is. */
async function overAll() {
  const [[steps, whole]] = Object.entries(input.edited).reverse(), said = []
  const compose = async () => {
    await page.call('Input.imeSetComposition', { text: 'か', selectionStart: 1, selectionEnd: 1 })
    await page.type('漢')
  }
  const away = async () => {
    await page.key('ArrowLeft')
    await page.evaluate(`(async () => { document.getElementById('editor').scrollTop = 20_000; await ${TWO_FRAMES} })()`)
    await page.type('x')
  }
  const edits = [() => page.evaluate(`document.execCommand('cut')`), () => page.key('Enter'), compose, away]
  for (const edit of edits) {
    await page.evaluate(`(${drop})(${JSON.stringify(whole)})`)
    await verdict(new RegExp(`accepted ${steps}$`))
    await settled()
    await page.evaluate(`document.getElementById('text').focus({ preventScroll: true })`)
    await page.key('a', 2)
    await edit()
    await page.evaluate(TWO_FRAMES)
    await settled()
    said.push(await page.evaluate(`[document.getElementById('text').value.slice(0, 5),
      document.getElementById('sheet').style.height]`))
  }
  show('over all', [...said.slice(0, 3).map(([value]) => value), said[3][1]])
}

/** A newer text takes the place of one of full size, however long that one would be judged. */
async function lastWins() {
  show('256 tasks: milliseconds', await dropped('large', /accepted 65536/))
  show('256 tasks: the chosen step', (await text('said')).split(':')[0])
  // The page takes a file as soon as it has read it, and then the other text is chosen.
  await page.evaluate(`(async () => {
    const { text } = Blob.prototype
    const taken = new Promise(done => {
      Blob.prototype.text = async function () { const read = await text.call(this); setTimeout(done); return read }
    })
    await (${drop})(given)
    await taken
    Blob.prototype.text = text })()`)
  await choose('ceilings')
  await pause(300) // in which the other text may come
  await verdict(/accepted 7/)
  show('the last text', [await text('verdict'), await report()])
  await choose('inversion_avoided')
  await page.evaluate(`(async () => {
    const { text } = Blob.prototype, it = document.getElementById('examples')
    let read
    const until = new Promise(done => { read = done })
    Blob.prototype.text = async function () { await until; return text.call(this) }
    await (${drop})(given)
    it.value = 'ceilings'
    it.onchange()
    read()
    Blob.prototype.text = text })()`)
  await pause(300)
  await verdict(/accepted 7/)
  await settled()
  show('a file that is read after a later text', [await text('verdict'), await report()])
}

/** Of many tasks, those that no step names are folded. */
async function folds() {
  await typed(input.folded)
  const shown = () => all('#names text[font-size="13"]', 'it.textContent')
  show('folded', [await shown(), await text('unfold')])
  if (shots) await page.shot(`${shots}/folded.png`)
  await clicked('unfold')
  // Only the lanes near those in view are drawn.
  const first = await shown()
  await page.evaluate(`{ const it = document.getElementById('time'); it.scrollTop = it.scrollHeight }`)
  await page.evaluate(TWO_FRAMES)
  await settled()
  show('lanes that aren\'t drawn', await page.evaluate(`(async () => {
    const it = document.getElementById('time'), gaps = []
    const isWhole = () => { const { top, bottom } = it.getBoundingClientRect(), [...lanes] = document.querySelectorAll('#lanes .part')
      const boxes = lanes.slice(1).map(lane => lane.getBoundingClientRect())
      const begin = Math.min(...boxes.map(box => box.top)), end = Math.max(...boxes.map(box => box.bottom))
      return begin <= top + 21 && end >= bottom - 1 }
    const isBusy = () => document.getElementById('main').getAttribute('aria-busy') === 'true'
    const most = it.scrollHeight - it.clientHeight
    for (const place of [0, .25, .5, .75, 1]) {
      it.scrollTop = place * most
      await ${TWO_FRAMES}
      while (isBusy()) await new Promise(requestAnimationFrame)
      if (!isWhole()) gaps.push([place, 'drawn'])
      // So far from there nothing is drawn again.
      for (const way of [-1, 1]) { const from = it.scrollTop; it.scrollTop += way * (it.clientHeight / 4 - 4)
        if (!isWhole()) gaps.push([place, way]); it.scrollTop = from }
    }
    it.scrollTop = most
    await ${TWO_FRAMES}
    return gaps })()`))
  await settled()
  show('unfolded', [first.slice(0, 3), (await shown()).pop(), await text('unfold')])
  await saved('svg')
  renameSync(`${folder}/trace.svg`, `${folder}/unfolded.svg`)
  await clicked('unfold')
}

/** Types into a text of 200 lines, and says how long the page's own thread took for a key. */
async function keys() {
  await choose('ceilings')
  await typed(input.long)
  const times = []
  for (let i = 0; i < 10; i++) {
    const begin = await spent()
    await page.type(i % 2 ? '\n' : '1 lock 1')
    await settled()
    await page.evaluate('new Promise(requestAnimationFrame)')
    times.push(await spent() - begin)
  }
  show('a key: milliseconds', times.sort((a, b) => a - b)[times.length >> 1])
}

/** Counts the elements that the page puts in: all, the most of a frame, and the most characters of a frame outside of the
 * editor, where an element is as much as 30 more. */
const COUNTING = `{ const none = { most: 0, all: 0, painted: 0 }, made = window.made = { ...none }
  let frame = 0, elements = 0, painted = 0
  window.countAnew = () => { elements = painted = 0; Object.assign(made, none) }
  new MutationObserver(records => {
    const now = document.timeline.currentTime
    if (now !== frame) { frame = now; elements = painted = 0 }
    for (const { target, addedNodes } of records) for (const node of addedNodes) {
      const count = node.nodeType === 1 ? 1 + node.querySelectorAll('*').length : 0
      elements += count; made.all += count
      if (count && !target.closest('#editor')) painted += 30 * count + node.outerHTML.length
    }
    made.most = Math.max(made.most, elements); made.painted = Math.max(made.painted, painted)
  }).observe(document.body, { childList: true, subtree: true }) }`

/** What this machine takes to make a thousand elements: a task that the keys are compared with. */
const MAKING = `{ const box = document.createElement('pre'); box.style.position = 'fixed'; document.body.append(box)
  box.innerHTML = '<span style="display:block"><b>lock</b> 1</span>'.repeat(500); box.offsetHeight; box.remove() }`

/** Presses keys, and returns the elements that each made, and how long it held the page's thread. */
async function watched(names) {
  const made = []
  const events = await page.traced(async () => {
    for (const name of names) {
      await page.evaluate(`performance.mark('key'); window.countAnew()
        window.drawn = new Promise(done => addEventListener('keydown', ({ timeStamp }) => { const wait = () =>
          document.getElementById('main').getAttribute('aria-busy') === 'false'
            ? done(performance.now() - timeStamp) : requestAnimationFrame(wait)
          setTimeout(() => requestAnimationFrame(wait)) }, { once: true })); 0`)
      await page.key(name)
      const took = await page.evaluate('drawn')
      await page.evaluate(TWO_FRAMES)
      made.push({ ...await page.evaluate('window.made'), took })
      await page.evaluate(`performance.mark('making')`)
      await page.evaluate(MAKING)
      await page.evaluate(TWO_FRAMES)
    }
    await page.evaluate(`performance.mark('end')`)
  })
  return { made, ...heldBy(events) }
}

/** Returns from traced events, of each key and of what was made behind it, the longest task; and of each key the most
 * elements that one task restyles, objects that it lays out, and layouts that it makes. */
function heldBy(events) {
  const marks = events.filter(it => ['key', 'making', 'end'].includes(it.name)).sort((a, b) => a.ts - b.ts)
  const mine = events.filter(it => it.ph === 'X' && it.tid === marks[0].tid && it.pid === marks[0].pid)
  const tasks = mine.filter(it => it.cat.includes('toplevel')), parts = mine.filter(it => !it.cat.includes('toplevel'))
  const between = i => tasks.filter(it => it.ts >= marks[i].ts && it.ts < marks[i + 1].ts)
  const inside = (task, name) => parts.filter(it => it.name === name && it.ts >= task.ts && it.ts < task.ts + task.dur)
  const sum = (found, of) => found.reduce((all, it) => all + (of(it) ?? 0), 0)
  const most = (i, of) => Math.max(...between(i).map(of))
  const over = (name, of) => marks.slice(0, -1).flatMap((it, i) => it.name === name ? [most(i, of)] : [])
  const longest = name => over(name, it => it.tdur ?? 0).map(it => it / 1000)
  return {
    held: longest('key'), making: longest('making'),
    restyled: over('key', it => sum(inside(it, 'UpdateLayoutTree'), ({ args }) => args.elementCount)),
    laid: over('key', it => sum(inside(it, 'Layout'), ({ args }) => args.beginData?.dirtyObjects)),
    layouts: over('key', it => inside(it, 'Layout').length),
  }
}

/** Counts the words of the lanes that are hidden and don't begin left of the view, or aren't and do. */
const WRONGLY_HIDDEN = `(() => {
  const k = document.getElementById('time').scrollLeft / document.querySelector('#lanes .pick').getAttribute('width')
  return [...document.querySelectorAll('#lanes text[data-from]')].filter(it =>
    (+it.dataset.from < k && k < +it.dataset.to) !== (getComputedStyle(it).visibility === 'hidden')).length })()`

/** Types a line into texts of 200 lines, at the end and in the middle. */
async function keysOfLines() {
  await page.evaluate(COUNTING)
  for (const [name, { whole, line, wide, keys: names }] of Object.entries(input.keys)) {
    await page.size(wide, 0.6 * wide, false)
    await typed(whole)
    await page.evaluate(`{ const it = document.getElementById('text'), lines = it.value.split('\\n')
      const place = lines.slice(0, ${line}).join('\\n').length
      it.setSelectionRange(place, place); it.onclick(); document.getElementById('editor').scrollTop = 21 * ${line} - 200 }`)
    await settled()
    await page.evaluate(TWO_FRAMES) // what was drawn before the keys is laid out before them, too
    show(`keys, ${name}`, await watched(names))
    show(`words wrongly hidden, ${name}`, await page.evaluate(WRONGLY_HIDDEN))
  }
  await page.size(1280, 800, false)
}

/** Returns the texts whose contrast with what is behind them is below that of AA. */
const CONTRASTS = `(() => {
  const rgb = css => { const c = document.createElement('canvas').getContext('2d', { willReadFrequently: true })
    c.fillStyle = css; c.fillRect(0, 0, 1, 1); return [...c.getImageData(0, 0, 1, 1).data] }
  const known = new Map(), color = css => { if (!known.has(css)) known.set(css, rgb(css)); return known.get(css) }
  const over = (top, below) => [0, 1, 2].map(i => top[i] * top[3] / 255 + below[i] * (1 - top[3] / 255)).concat(255)
  const light = c => [.2126, .7152, .0722].reduce((sum, w, i) => {
    const v = c[i] / 255; return sum + w * (v <= .04045 ? v / 12.92 : ((v + .055) / 1.055) ** 2.4) }, 0)
  const behind = it => { let c = [255, 255, 255, 0]; const chain = []
    for (let at = it; at; at = at.parentElement) chain.push(color(getComputedStyle(at).backgroundColor))
    return chain.reverse().reduce((below, top) => over(top, below), [255, 255, 255, 255]) }
  const found = []
  for (const it of document.querySelectorAll('body *')) {
    const own = [...it.childNodes].some(n => n.nodeType === 3 && n.textContent.trim())
    const box = it.getBoundingClientRect(), style = getComputedStyle(it)
    if (!own || !box.width || style.visibility === 'hidden' || it.matches('script, style, textarea, option, :disabled')) continue
    if (it.id === 'tip') continue
    const svg = it instanceof SVGElement, ink = color(svg ? style.fill : style.color)
    const boxes = svg ? [...it.ownerSVGElement.querySelectorAll('rect:not(.pick)')].filter(r => { if (getComputedStyle(r).fill === 'none') return false
      const b = r.getBoundingClientRect()
      return b.left <= box.left + 1 && b.right >= box.right - 1 && b.top <= box.top + 2 && b.bottom >= box.bottom - 2
        && r.compareDocumentPosition(it) & 4 }) : []
    const below = boxes.reduce((c, r) => over(color(getComputedStyle(r).fill), c), behind(svg ? it.ownerSVGElement.parentElement : it))
    const [a, b] = [light(over(ink, below)), light(below)].sort((x, y) => y - x)
    const ratio = (a + .05) / (b + .05)
    if (ratio < 4.5) found.push([it.textContent.trim().slice(0, 30), +ratio.toFixed(2)])
  }
  return found })()`

async function looks() {
  for (const [width, height] of [[390, 844], [1280, 800], [2560, 1440]]) {
    for (const dark of [false, true]) {
      await page.size(width, height, dark)
      const name = `${width} pixels, ${dark ? 'dark' : 'light'}`
      for (const what of ['start', 'boost_through_a_chain', 'ceilings', 'recording_rejected']) {
        await choose(what)
        await pause(60)
        await page.evaluate(TWO_FRAMES)
        await settled()
        const wide = await page.evaluate(`document.documentElement.scrollWidth - ${width}`)
        show(`${name}, ${what}`, [Math.max(0, wide), await page.evaluate(CONTRASTS)])
        if (shots) await page.shot(`${shots}/${width}-${dark ? 'dark' : 'light'}-${what}.png`)
      }
    }
  }
  await page.size(1280, 800, false)
}

/** Goes through the page by Tab alone, and returns what had the focus. */
async function byKeyboard() {
  await choose('ceilings')
  await page.evaluate(`document.activeElement.blur(); document.getElementById('examples').focus()`)
  const seen = []
  for (let i = 0; i < 12; i++) {
    seen.push(await page.evaluate('document.activeElement.id'))
    await page.key('Tab')
  }
  show('the focus', seen)
  await page.evaluate(`document.getElementById('more').focus()`)
  await page.key('Enter')
  show('about', await page.evaluate(`document.getElementById('about').open`))
  await page.key('Escape')
  show('about is closed', await page.evaluate(`document.getElementById('about').open`))
}

/** What a screen reader is told: the names of the parts, and the report. */
async function spoken() {
  await choose('inversion_avoided')
  const { nodes } = await page.call('Accessibility.getFullAXTree')
  const named = nodes.filter(it => ['region', 'button', 'slider', 'combobox', 'textbox', 'image', 'status'].includes(it.role?.value))
  show('spoken', named.map(it => `${it.role.value} ${it.name?.value ?? ''}`.trim()))
  show('spoken report', nodes.some(it => it.role?.value === 'StaticText' && it.name?.value === '  task 1 at 90 waiter 3 mutex 1'))
}

try {
  for (const part of [firstVisit, failures, examples, graphs, details, typing, fills, leftEdge, stepping, files, full, longEditor, edits, undoing, undoingInLine, places, overAll, lastWins, folds, keys, keysOfLines, narrowReplies, byKeyboard, spoken, looks]) await part()
  const asked = page.heard.filter(it => it.method === 'Network.requestWillBeSent').map(it => it.params.request.url)
  show('requests', asked.filter(url => !/^(data|blob):/.test(url) && url.split('#')[0] !== address))
  const errors = page.heard.filter(it => FAILURES.includes(it.method)).map(it => JSON.stringify(it.params))
  show('errors', errors.map(it => it.slice(0, 300)))
  show('a request', await page.evaluate(
    `fetch('data:text/plain,sent').then(() => 'made', () => 'refused')`))
} finally { await page.close() }
