// scripts.mjs PAGE: what the page's scripts answer, without a browser and without the module: of traces that take
// too long to be drawn in a test, and of small ones. PAGE is the folder of the scripts. Prints a line of JSON for each
// scene: its name, what happened, and what was wanted. All that is wanted was worked out by hand.
import { readFileSync } from 'node:fs'

/** Returns what the scripts of these names declare. */
function declared(names, wanted) {
  const source = names.map(name => readFileSync(`${process.argv[2]}/${name}.js`, 'utf8')).join('\n')
  return new Function(`'use strict'\n${source}\nreturn ${wanted}`)()
}

const {
  States, View, savedOf, asked, badLine, boosts, reason, stretches, coloured, remark, kindOf, widest, classOf, reportLine, drawnOf,
  placeInReport, limits,
} = declared(['states', 'trace', 'lanes', 'text', 'save'], `{ States, View, savedOf, asked, badLine, boosts, reason, stretches,
  coloured, remark, kindOf, widest, classOf, reportLine, drawnOf, placeInReport, limits }`)

const lines = ['pim 1', 'task 1 10', 'task 2 20', 'mutex 1 none', '1 lock 1', '2 lock 1', '']
const CUT = {
  read: { tasks: 2, mutexes: 1, steps: 2 }, last: 2, states: null, invalid: 0, rejected: 0,
  report: '1 granted\n2 que', starts: [0, 10], places: [0, 0, 0], steps: [1],
}

const viewOf = (of, given) => new View(1, of.join('\n'), of, given)

// Rejected at step 2, its sixth line. Its report has 41 characters, and lines of 10, 31 and 11.
const REJECTED = ['pim 1', 'task 1 10', 'task 2 20', 'mutex 1 none', '1 lock 1 = granted', '2 lock 1 = freed', '1 unlock 1', '']
const ofRejected = () => viewOf(REJECTED, {
  ...CUT, read: { tasks: 2, mutexes: 1, steps: 3 }, rejected: 2,
  report: '1 granted\n2 queued but recorded freed\nrejected 2\n', starts: [0, 10, 38, 49], places: [0, 0, 1], steps: [1, 2, 2],
})
// Its fourth line is invalid, and none above is a step.
const INVALID = ['pim 1', 'task 1 10', 'task 2 20', 'mutex 1', '1 lock 1']
const ofInvalid = () => viewOf(INVALID, {
  ...CUT, read: { tasks: 2, mutexes: 0, steps: 0 }, last: 0, invalid: 4,
  report: 'accepted 0\n', starts: [0, 11], places: [0], steps: [0],
})
const editorOf = held => ({ lines: held, first: 0, past: held.length })

/** Returns what is said behind each line of an editor. */
const remarks = (view, held) => held.map((_, i) => remark(view, editorOf(held), i + 1))

/** A report of 100 lines, two for each of the steps but the last, which has 51. */
const LONG = {
  invalid: 0, reportLines: 101, steps: [...Array.from({ length: 50 }, (_, i) => (i >> 1) + 1), ...Array(51).fill(26)],
  places: [0, ...Array.from({ length: 26 }, (_, i) => 2 * i)],
}

const SCENES = {
  'a cut report'() {
    const view = new View(1, lines.join('\n'), lines, CUT)
    return [view.reportLines, [0, 1, 2, 3].map(k => view.reply(k))]
  },
  'the states from a later step on'() {
    const numbers = new Uint16Array(14), made = [2, 0, 7, 1]
    const states = new States({ from: 3, past: 5, tasks: 1, mutexes: 0, numbers, made })
    return [[2, 3, 4, 5].map(k => states.has(k)), [3, 4].map(k => states.maker(k))]
  },
  'a state'() {
    // Of each step, three tasks, two mutexes, and the waiters of both with room for another one.
    const numbers = [40, 10, 0, 3, 3, 2, 20, 20, 1, 1, 0, 0, 40, 40, 2, 1, 0, 0, 1, 1, 2, 30, 1, 1, 3, 3, 0, 1, 2, 3, 0]
    const both = { from: 4, past: 6, tasks: 3, mutexes: 2, numbers: Uint16Array.from([...Array(31).fill(9), ...numbers]) }
    const states = new States(both)
    return [states.size, states.task(5, 0), states.mutex(5, 1), states.at(5)]
  },
  'the states that a view has'() {
    const [all, here] = [[0, 3], [7, 8]].map(([from, past]) => new States({ from, past, tasks: 1, mutexes: 0 }))
    const view = Object.assign(viewOf(lines, CUT), { states: all, here }), has = k => ['all', 'here'][[all, here].indexOf(view.statesAt(k))] ?? null
    return [0, 2, 3, 7, 8].map(has)
  },
  'what a step asks for'() { return [1, 2, 3].map(k => asked(ofRejected(), k)) },
  'the bad line'() { return [ofRejected(), ofInvalid(), viewOf(lines, CUT)].map(badLine) },
  'why a task has its priority'() {
    const waiter = { prio: 40, base: 10, why: 'waiter', of: 2, by: 3 }, ceiling = { prio: 30, base: 10, why: 'ceiling', of: 0, by: 4 }
    const base = { prio: 10, base: 10, why: 'base', of: 0, by: 0 }
    // A waiter of the same priority as the base boosts nothing.
    const tasks = [waiter, base, ceiling, { ...waiter, prio: 10 }]
    return [tasks.map((it, i) => reason(i + 1, it)), boosts({ tasks })]
  },
  'stretches'() { return stretches(2, 9, k => [null, null, 'a', 'a', 'b', null, 'b', 'b', 'b', 'b'][k]) },
  'words of a line'() {
    return ['mutex 1 inherit', '1 lock 2 = refused busy', 'pim <', 'a task 1', '1 release', '1 base 2 3'].map(coloured)
  },
  'what is said behind a line'() {
    const view = ofRejected(), [first, ...rest] = REJECTED
    return [
      remarks(view, REJECTED), remarks(view, [first, 'task 3 30', ...rest]), remarks(view, [...REJECTED, '1 lock 1']),
      remarks(view, REJECTED.with(4, '1 lock 2')), remarks(ofInvalid(), INVALID), remarks(ofInvalid(), ['', ...INVALID])]
  },
  'the kinds of lines'() {
    const kinds = (view, now) => view.lines.map((_, i) => kindOf(view, now, i + 1))
    return [kinds(ofRejected(), 2), kinds(ofRejected(), 1), kinds(ofInvalid(), 0), kinds({ ...ofInvalid(), read: null }, 0)]
  },
  'how wide the lines are'() {
    return [editorOf(REJECTED), { ...editorOf(REJECTED), first: 6 }, { ...editorOf(REJECTED), past: 5 }].map(it => widest(ofRejected(), it))
  },
  'the lines of a report'() {
    const view = ofRejected(), said = now => [0, 1, 2].map(i => reportLine(view, now, i)), { rejected } = view
    const last = ['accepted 0', 'line 4'].map(line => classOf({ rejected }, line, 0, 0))
    return [said(1), said(2), last, classOf({ rejected }, '  task 1 at 10 base', 1, 1)]
  },
  'which lines of a report are drawn'() {
    const drawn = (reportLines, scrollTop) => drawnOf({ reportLines }, { scrollTop, clientHeight: 210 }, 20)
    return [drawn(2000, 9000), drawn(2001, 0), drawn(5000, 20_019), drawn(5000, 99_790)]
  },
  'where a report is scrolled to'() {
    const places = (now, ...tops) => tops.map(scrollTop => placeInReport(LONG, now, { scrollTop, clientHeight: 100 }))
    const invalid = placeInReport({ ...LONG, invalid: 3 }, 10, { scrollTop: 0, clientHeight: 100 })
    const cut = placeInReport({ ...LONG, places: [0, ...Array(26).fill(0)] }, 10, { scrollTop: 50, clientHeight: 100 })
    return [places(10, 0, 299, 300, 360, 361), places(26, 0, 2000), places(0, 77), invalid, cut]
  },
  'what the page does not do'() {
    const said = (isLong, length, last) => limits({ length, last }, { isLong, lines: { length: 65_554 } })
    return [said(false, 4_194_304, 1200), said(false, 4_194_305, 1201), said(true, 1, 1).slice(0, 20)]
  },
  'the steps of a saved picture'() {
    const saved = (tasks, mutexes, last, now) => savedOf({ read: { tasks, mutexes }, last }, now)
    return [
      saved(1, 0, 10, 4), saved(1, 0, 1200, 0), saved(1, 0, 5000, 0), saved(1, 0, 5000, 2500), saved(1, 0, 5000, 5000),
      saved(256, 256, 65536, 0), saved(256, 256, 65536, 65536), saved(256, 0, 65536, 30_000), saved(0, 0, 0, 0)]
  },
}

const TASKS = [
  { prio: 40, base: 10, waits: 0, why: 'waiter', of: 3, by: 2 }, { prio: 20, base: 20, waits: 1, why: 'base', of: 0, by: 0 },
  { prio: 40, base: 40, waits: 2, why: 'base', of: 0, by: 0 }]
const MUTEXES = [
  { owner: 1, count: 1, kind: 'protect', ceiling: 30, waiting: 1 },
  { owner: 1, count: 3, kind: 'inherit recursive', ceiling: 0, waiting: 1 }]
const WANTED = {
  'a cut report': [1, ['', 'granted', '', '']],
  'the states from a later step on': [
    [false, true, true, false], [{ actor: 2, refused: false }, { actor: 7, refused: true }]],
  'a state': [31, TASKS[0], MUTEXES[1], { tasks: TASKS, mutexes: MUTEXES.map((it, i) => ({ ...it, queue: [i + 2] })) }],
  'the states that a view has': ['all', 'all', null, 'here', null],
  'what a step asks for': ['1 lock 1', '2 lock 1', '1 unlock 1'],
  'the bad line': [6, 4, 0],
  'why a task has its priority': [
    ['task 1 at 40: task 2 waits for mutex 3', 'task 2 at its base, 10', 'task 3 at 30: the ceiling of mutex 4',
      'task 4 at 10: task 2 waits for mutex 3'],
    [{ why: 'waiter', said: 'Task 1 executes at 40 instead of 10: task 2 waits for mutex 3.' },
      { why: 'ceiling', said: 'Task 3 executes at 30 instead of 10: the ceiling of mutex 4.' }]],
  // A stretch that nothing comes between is one; it ends before the step that is its last number.
  'stretches': [{ key: 'a', from: 2, to: 4 }, { key: 'b', from: 4, to: 5 }, { key: 'b', from: 6, to: 9 }],
  'words of a line': [
    '<b>mutex</b> 1 inherit', '1 <b>lock</b> 2<i> = refused busy</i>', '<b>pim</b> &#60;', 'a task 1', '1 <b>release</b>',
    '1 <b>base</b> 2 3'],
  // Behind the step that is rejected nothing is made. What is above or below another line is found again.
  'what is said behind a line': [
    ['', '', '', '', '✓', 'queued', '', ''], ['', '', '', '', '', '✓', 'queued', '', ''],
    ['', '', '', '', '✓', 'queued', '', '', ''], ['', '', '', '', '', 'queued', '', ''],
    ['', '', '', 'invalid line', ''], ['', '', '', '', 'invalid line', '']],
  'the kinds of lines': [
    ['', '', '', '', '', 'bad now', 'after', 'after'], ['', '', '', '', 'now', 'bad', 'after', 'after'],
    ['', '', '', 'bad', 'after'], ['', '', '', 'bad', 'after']],
  // 16 and 6 for `queued`, 10 alone, and 18 and 1 for the mark, each with two more
  'how wide the lines are': [24, 12, 21],
  'the lines of a report': [
    ['<span class="step now" data-step="1">1 granted</span>', '<span class="step bad" data-step="2">2 queued but recorded freed</span>',
      '<span class="last bad" data-step="2">rejected 2</span>'],
    ['<span class="step" data-step="1">1 granted</span>', '<span class="step now bad" data-step="2">2 queued but recorded freed</span>',
      '<span class="last bad" data-step="2">rejected 2</span>'],
    ['last', 'last bad'], 'now'],
  // of 20 pixels each, eleven lines, and 20 more on each side
  'which lines of a report are drawn': [
    { first: 0, past: 2000 }, { first: 0, past: 31 }, { first: 980, past: 1031 }, { first: 4969, past: 5000 }],
  // Step 10 has the lines from 360 to 400 pixels, and step 26 those from 1,000 on, of which 50 are in the report.
  'where a report is scrolled to': [[306, 306, 300, 360, 354], [1006, 994], [77], 0, 50],
  'what the page does not do': [
    '', 'The report has 4,194,305 bytes; the page shows the first 4,194,304. A saved picture has up to 1,200 steps near the chosen one.',
    'Of 65,554 lines, the'],
  // 1,200 steps and the state before them; of 512 tasks and mutexes 400,000 / 512 = 781 steps, of 256 those of 1,200
  'the steps of a saved picture': [
    [0, 11], [0, 1201], [0, 1201], [1900, 3101], [3800, 5001], [0, 782], [64755, 65537], [29_400, 30_601], [0, 1]],
}

for (const [name, play] of Object.entries(SCENES)) {
  let got
  try { got = play() } catch (error) { got = error.stack }
  console.log(JSON.stringify([name, JSON.stringify(got), JSON.stringify(WANTED[name])]))
}
