// graph.mjs PAGE: where graph.js puts tasks, mutexes and arrows, and how it draws them, without a browser. PAGE is
// the folder of the page's scripts. Prints a line of JSON for each scene: its name, what happened, and what was wanted.
// All places were worked out by hand from the sizes of the boxes and the gaps between them.
import { readFileSync } from 'node:fs'

const source = ['states', 'trace', 'lanes', 'graph'].map(name => readFileSync(`${process.argv[2]}/${name}.js`, 'utf8')).join('\n')
const { Layout, drawGraph, ownership } = new Function(`'use strict'\n${source}\nreturn { Layout, drawGraph, ownership }`)()

const base = (prio, waits = 0) => ({ prio, base: prio, waits, why: 'base', of: 0, by: 0 })
const boosted = (prio, from, why, of, by, waits = 0) => ({ prio, base: from, waits, why, of, by })
const mutex = (owner, queue = [], kind = 'inherit', more = {}) =>
  ({ owner, count: owner ? 1 : 0, kind, ceiling: 0, waiting: queue.length, queue, ...more })

// Task 2 waits for mutex 1, which task 1 owns. Task 3 and mutex 2 are on their own.
const PAIR = { tasks: [boosted(90, 10, 'waiter', 2, 1), base(90, 1), base(50)], mutexes: [mutex(1, [2]), mutex(0, [], 'none')] }
// Task 4 waits for mutex 3 of task 3, which waits for mutex 2 of task 2, which waits for mutex 1 of task 1.
const CHAIN = {
  tasks: [1, 2, 3].map(n => boosted(90, 10 * n, 'waiter', n + 1, n, n - 1)).concat(base(90, 3)),
  mutexes: [1, 2, 3].map(n => mutex(n, [n + 1])),
}
// Task 1 owns two mutexes: for the first one tasks 2 and 3 wait. The ceiling of the second one boosts it.
const QUEUE = {
  tasks: [boosted(60, 10, 'ceiling', 0, 2), base(30, 1), base(20, 1)],
  mutexes: [mutex(1, [2, 3]), mutex(1, [], 'protect', { ceiling: 60 })],
}
const RECURSIVE = { tasks: [base(10)], mutexes: [mutex(1, [], 'inherit recursive', { count: 3 })] }
// Of the waiters for mutex 1 only task 2 boosts task 1.
const WAITERS = { tasks: [boosted(90, 10, 'waiter', 2, 1), base(90, 1), base(20, 1)], mutexes: [mutex(1, [2, 3])] }
// The ceiling of mutex 1 boosts task 1, and not task 2, which waits for it. Task 3 owns mutex 2.
const CEILING = {
  tasks: [boosted(60, 10, 'ceiling', 0, 1), base(30, 1), base(20)], mutexes: [mutex(1, [2], 'protect', { ceiling: 60 }), mutex(3)] }
const ALONE = { tasks: [base(10), base(20), base(30)], mutexes: [] }

const laid = (state, width, narrow = false) => new Layout(state, { width, narrow })
const nodes = (...given) => laid(...given).nodes.map(({ t, m, x, y }) => [t ? `task ${t}` : `mutex ${m}`, x, y])
const edges = (...given) => laid(...given).edges.map(({ from, to, why, waits, nth }) =>
  [from.x, from.y, to.x, to.y, why, !!waits, nth ?? 0])
const drawn = (state, width, narrow = false) => {
  const { width: wide, height, parts } = drawGraph(state, { width, narrow })
  return { wide, height, parts: parts.map(({ texts }) => texts()) }
}

/** Returns the names and values of the attributes of the elements in a text, and the words in it. */
const attributes = (text, ...names) => names.map(name => [...text.matchAll(new RegExp(` ${name}="([^"]*)"`, 'g'))].map(it => it[1]))
const words = text => [...text.matchAll(/>([^<>]+)</g)].map(it => it[1].trim()).filter(Boolean)

const SCENES = {
  'a pair next to the others': () => nodes(PAIR, 800),
  'a pair with a row less room': () => nodes(PAIR, 700),
  'a pair above the others': () => nodes(PAIR, 592),
  'a pair on a narrow page': () => nodes(PAIR, 334, true),
  'a pair with smaller gaps': () => nodes(PAIR, 380),
  'a chain that is too long': () => nodes(CHAIN, 600),
  'a queue': () => nodes(QUEUE, 800),
  'tasks on their own': () => [nodes(ALONE, 375), nodes(ALONE, 376), nodes(ALONE, 94, true)],
  'the arrows of a pair': () => [edges(PAIR, 800), edges(PAIR, 334, true)],
  'the arrows of a queue': () => edges(QUEUE, 800),
  'the arrows of two waiters': () => edges(WAITERS, 800),
  'two chains': () => [nodes(CEILING, 800), edges(CEILING, 800)],
  'the size of a graph': () => [drawn(PAIR, 800), drawn(CHAIN, 600), drawn(ALONE, 376)].map(({ wide, height }) => [wide, height]),
  'the lines of a queue'() {
    const [, lines] = drawn(QUEUE, 800).parts
    return [lines.filter(it => it.startsWith('<text')).map(it => [...attributes(it, 'x', 'y').flat(), ...words(it)]),
      lines.filter(it => it.startsWith('<path')).map(it => attributes(it, 'd', 'marker-end', 'style').flat())]
  },
  'a line on a narrow page': () => attributes(drawn(PAIR, 334, true).parts[1].join(''), 'd'),
  'the boxes of tasks'() {
    const boxes = [drawn(PAIR, 800), drawn(QUEUE, 800), drawn(PAIR, 334, true)].map(({ parts }) => parts[2].filter(it => />task/.test(it)))
    return [boxes[0][0], boxes[0][1], boxes[1][2], boxes[2][0]].map(it => [attributes(it, 'x', 'y', 'width', 'height', 'style').map(one => one[0]), words(it)])
  },
  'the boxes of mutexes'() {
    const boxes = [PAIR, QUEUE, RECURSIVE].flatMap(state => drawn(state, 800).parts[2].filter(it => />mutex/.test(it)))
    return boxes.map(it => [attributes(it, 'x', 'y', 'width', 'height', 'style'), words(it)])
  },
  'who owns a mutex': () => [...PAIR.mutexes, QUEUE.mutexes[1], ...RECURSIVE.mutexes, { ...PAIR.mutexes[0], count: 2 }].map((it, i) => ownership(i + 1, it)),
}

const HUE = n => `fill:var(--m${n})`
const box = (fill, stroke) => `fill:${fill};stroke:var(--m${stroke});stroke-width:1.3`
const WANTED = {
  // A task has 116 by 46 pixels, a mutex 88 by 40. 800 - 2 * 116 - 88 = 480, so that the gap is 48, the largest one. What
  // is on its own is 60 pixels from the chain, and 14 apart.
  'a pair next to the others': [['task 2', 300, 1], ['mutex 1', 164, 4], ['task 1', 0, 1], ['task 3', 476, 1], ['mutex 2', 606, 4]],
  'a pair with a row less room': [['task 2', 300, 1], ['mutex 1', 164, 4], ['task 1', 0, 1], ['task 3', 476, 1], ['mutex 2', 476, 62]],
  // 18 below the chain, for which a mutex counts as high as a task: 4 + 46 + 18
  'a pair above the others': [['task 2', 300, 1], ['mutex 1', 164, 4], ['task 1', 0, 1], ['task 3', 0, 68], ['mutex 2', 130, 71]],
  // 94 by 46 and 80 by 40, 26 apart; the chain goes down
  'a pair on a narrow page': [['task 2', 1, 138], ['mutex 1', 8, 72], ['task 1', 1, 0], ['task 3', 0, 202], ['mutex 2', 108, 205]],
  // 380 - 320 = 60, for two gaps
  'a pair with smaller gaps': [['task 2', 264, 1], ['mutex 1', 146, 4], ['task 1', 0, 1], ['task 3', 0, 68], ['mutex 2', 130, 71]],
  // The least gap is 18.
  'a chain that is too long': [
    ['task 4', 720, 1], ['mutex 3', 614, 4], ['task 3', 480, 1], ['mutex 2', 374, 4], ['task 2', 240, 1], ['mutex 1', 134, 4],
    ['task 1', 0, 1]],
  // Waiters are 58 pixels below each other, and what has both is between them: 24 and 82, so 53. Mutex 2 is at 140.
  'a queue': [['task 2', 300, 1], ['task 3', 300, 59], ['mutex 1', 164, 33], ['mutex 2', 164, 120], ['task 1', 0, 73.5]],
  // Three tasks need 3 * 116 + 2 * 14 = 376 pixels. A row is 58 pixels high.
  'tasks on their own': [
    [['task 1', 0, 1], ['task 2', 130, 1], ['task 3', 0, 59]], [['task 1', 0, 1], ['task 2', 130, 1], ['task 3', 260, 1]],
    [['task 1', 0, 1], ['task 2', 0, 59], ['task 3', 0, 117]]],
  'the arrows of a pair': [
    [[300, 24, 252, 24, 'waiter', true, 0], [164, 24, 116, 24, 'waiter', false, 0]],
    [[48, 138, 48, 112, 'waiter', true, 0], [48, 72, 48, 46, 'waiter', false, 0]]],
  'the arrows of a queue': [
    [300, 24, 252, 53, '', true, 1], [300, 82, 252, 53, '', true, 2], [164, 53, 116, 96.5, '', false, 0],
    [164, 140, 116, 96.5, 'ceiling', false, 0]],
  'the arrows of two waiters': [
    [300, 24, 252, 53, 'waiter', true, 1], [300, 82, 252, 53, '', true, 2], [164, 53, 116, 53, 'waiter', false, 0]],
  // 58 pixels below each other, and 8 more between two chains: 24 and 90
  'two chains': [
    [['task 2', 300, 1], ['mutex 1', 164, 4], ['task 1', 0, 1], ['mutex 2', 164, 70], ['task 3', 0, 67]],
    [[300, 24, 252, 24, '', true, 0], [164, 24, 116, 24, 'ceiling', false, 0], [164, 90, 116, 90, '', false, 0]]],
  // 6 below the lowest box; as wide as the page has room, or as the chain
  'the size of a graph': [[800, 56], [836, 56], [376, 53]],
  'the lines of a queue': [
    [['295', '19', '1'], ['295', '77', '2']],
    [['M300 24C276 24 276 53 258 53', 'url(#plain)', 'fill:none;stroke:var(--base);stroke-width:1.4;stroke-dasharray:4 3'],
      ['M300 82C276 82 276 53 258 53', 'url(#plain)', 'fill:none;stroke:var(--base);stroke-width:1.4;stroke-dasharray:4 3'],
      ['M164 53C140 53 140 96.5 122 96.5', 'url(#plain)', 'fill:none;stroke:var(--base);stroke-width:1.4'],
      ['M164 140C140 140 140 96.5 122 96.5', 'url(#ceiling)', 'fill:none;stroke:var(--ceil);stroke-width:2']]],
  'a line on a narrow page': [['M48 138C48 125 48 125 48 118', 'M48 72C48 59 48 59 48 52']],
  'the boxes of tasks': [
    [['300.75', '1.75', '114.5', '44.5', 'fill:var(--panel);stroke:var(--base);stroke-width:1.2'], ['task 2', 'waits, base 90', '90']],
    [['0.75', '1.75', '114.5', '44.5', 'fill:var(--panel);stroke:var(--boost);stroke-width:1.75'], ['task 1', 'base 10', '90', '▲']],
    [['0.75', '74.25', '114.5', '44.5', 'fill:var(--panel);stroke:var(--ceil);stroke-width:1.75'], ['task 1', 'base 10', '60', '◆']],
    [['1.75', '138.75', '92.5', '44.5', 'fill:var(--panel);stroke:var(--base);stroke-width:1.2'], ['task 2', 'base 90', '90']]],
  'the boxes of mutexes': [
    [[['164.75', '208', '208'], ['4.75', '22', '35'], ['86.5'], ['38.5'], [box('var(--m1)', 1), 'font-weight:600;fill:var(--on-m)', 'fill:var(--on-m)']],
      ['mutex 1', 'inherit']],
    [[['606.75', '650', '650'], ['4.75', '22', '35'], ['86.5'], ['38.5'], [box('var(--bg)', 2), `font-weight:600;${HUE(2)}`, 'fill:var(--soft)']],
      ['mutex 2', 'none']],
    [[['164.75', '208', '208'], ['33.75', '51', '64'], ['86.5'], ['38.5'], [box('var(--m1)', 1), 'font-weight:600;fill:var(--on-m)', 'fill:var(--on-m)']],
      ['mutex 1', 'inherit']],
    [[['164.75', '208', '208'], ['120.75', '138', '151'], ['86.5'], ['38.5'], [box('var(--m2)', 2), 'font-weight:600;fill:var(--on-m)', 'fill:var(--on-m)']],
      ['mutex 2', 'protect 60']],
    [[['164.75', '208', '208'], ['4.75', '22', '35'], ['86.5'], ['38.5'], [box('var(--m1)', 1), 'font-weight:600;fill:var(--on-m)', 'fill:var(--on-m)']],
      ['mutex 1', 'recursive ×3']]],
  'who owns a mutex': [
    'mutex 1, inherit: task 1 owns it', 'mutex 2, none: free', 'mutex 3, protect 60: task 1 owns it',
    'mutex 4, inherit recursive: task 1 owns it, locked 3 times', 'mutex 5, inherit: task 1 owns it, locked 2 times'],
}

for (const [name, play] of Object.entries(SCENES)) {
  let got
  try { got = play() } catch (error) { got = error.stack }
  console.log(JSON.stringify([name, JSON.stringify(got), JSON.stringify(WANTED[name])]))
}
