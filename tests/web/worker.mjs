// worker.mjs PAGE WASM: what the page's worker answers, with the module. PAGE is the folder of the page's scripts.
// Prints a line of JSON for each scene: its name, what happened, and what was wanted, which was worked out by hand.
import { readFileSync } from 'node:fs'

const [page, wasm] = process.argv.slice(2)
const source = ['states', 'engine', 'worker'].map(name => readFileSync(`${page}/${name}.js`, 'utf8')).join('\n')
const module = new WebAssembly.Module(readFileSync(wasm))

/** Returns a worker: a function that answers a call. */
function started() {
  let answer
  const send = new Function('postMessage', `'use strict'\nlet onmessage\n${source}\nreturn it => onmessage(it)`)(
    it => { answer = it })
  return (call, ...given) => {
    send({ data: { id: 5, call, given, module } })
    if (answer.id !== 5) throw Error(`an answer to call ${answer.id}`)
    return answer.failed ?? answer.result
  }
}

const AVOIDED = 'pim 1\ntask 1 10\ntask 2 50\ntask 3 90\nmutex 1 inherit\nmutex 2 none\n1 lock 1\n3 lock 1\n2 lock 2\n1 unlock 1\n3 unlock 1\n'
const REPORT = '1 granted\n2 queued\n  task 1 at 90 waiter 3 mutex 1\n3 granted\n4 handed 3\n  task 1 at 10 base\n5 freed\naccepted 5\n'
// Two mutexes at a time; a bar is in the first row that is free.
const ROWS = 'pim 1\ntask 1 10\n' + [1, 2, 3, 4].map(m => `mutex ${m} none\n`).join('')
  + ['lock 1', 'lock 2', 'unlock 1', 'lock 3', 'unlock 2', 'lock 4', 'unlock 4', 'unlock 3'].map(it => `1 ${it}\n`).join('')
const HEAD = 'pim 1\ntask 1 10\ntask 2 20\ntask 3 30\nmutex 1 protect 40\n'
const REJECTED = `${HEAD}1 lock 1 = granted\n1 lock 1 = granted\n1 unlock 1\n`

/** Returns what an answer says in numbers and words, without the states. */
const told = ({ states, bars, starts, places, steps, named, report, ...rest }) => [
  rest, report, [starts, places, steps, named ?? []].map(it => [...it])]
const barsOf = ({ numbers, begins, rows }) => [[...numbers], [...begins], [...rows]]

const SCENES = {
  'a text': ask => told(ask('look', AVOIDED, 7)),
  'nine steps': ask => told(ask('look', HEAD + '1 base 2 20\n'.repeat(9), 1))[2].slice(0, 3),
  'a text with an invalid line': ask => told(ask('look', `${HEAD}2 lock 1\n1 lokc 1\n1 lock 1\n`, 3)),
  'a text with an invalid first line': ask => told(ask('look', 'hello\npim 1\n', 3)),
  'a rejected text': ask => told(ask('look', REJECTED, 3)),
  // Behind the invalid line another text draws the same; above it, it doesn't.
  'since when a text is drawn': ask => [['a', 4], ['b', 5], ['', 6], ['2 lock 1', 7], ['2 lock 1\nb', 8]]
    .map(([more, turn]) => ask('look', `${HEAD}${more}\n`, turn).since),
  'the picture of a short text'(ask) {
    const { states: { from, past, tasks, mutexes, made }, bars } = ask('look', AVOIDED, 1)
    return [from, past, tasks, mutexes, [...made], barsOf(bars)]
  },
  'bars in rows'(ask) { ask('look', ROWS, 1); return barsOf(ask('bars', 8)) },
  'bars up to a step'(ask) { ask('look', ROWS, 1); return barsOf(ask('bars', 4)) },
  'states from a step on'(ask) {
    ask('look', REJECTED, 1)
    const { from, past, numbers, made } = ask('states', 1, 3)
    return [from, past, numbers.length, [...made], [...numbers.subarray(0, 6)]]
  },
  'the most boosted step'(ask) {
    const found = [AVOIDED, ROWS, REJECTED].map(text => { const { last } = ask('look', text, 1); return ask('mostBoosted', last) })
    ask('look', AVOIDED, 1)
    return [...found, ask('mostBoosted', 1)]
  },
  'calls that fail': ask => [ask('states', 0, 1), ask('none'), told(ask('look', 'pim 1\n', 1))[1]],
}

const numbersOf = (kind, number, length, invalid, rejected, read, last, since, reason = '') =>
  ({ kind, number, length, invalid, reason, rejected, read, last, since })
const STEP = "a step is '<task> ..' and 'lock', 'try' or 'unlock <mutex>', 'release', 'cancel <task>', "
  + "'base <task> <priority>' or 'ceil <mutex> <ceiling>'"
const WANTED = {
  'a text': [
    // Its lines have 10, 9, 32, 10, 11, 20, 8 and 11 characters with their ends.
    numbersOf(0, 5, 111, 0, 0, { tasks: 3, mutexes: 2, steps: 5 }, 5, 7), REPORT,
    [[0, 10, 19, 51, 61, 72, 92, 100, 111], [0, 0, 1, 3, 4, 6], [1, 2, 2, 3, 4, 4, 5, 5], [0, 1, 1, 1]]],
  // A reply `set` has a line of 6 characters, and the last line has 11.
  'nine steps': [
    [0, 6, 12, 18, 24, 30, 36, 42, 48, 54, 65], [0, 0, 1, 2, 3, 4, 5, 6, 7, 8], [1, 2, 3, 4, 5, 6, 7, 8, 9, 9]],
  // The report and the picture are those of what is above the invalid line; the verdict has no report.
  'a text with an invalid line': [
    numbersOf(2, 7, 0, 7, 0, { tasks: 3, mutexes: 1, steps: 1 }, 1, 3, STEP), '1 granted\n  task 2 at 40 ceiling 1\naccepted 1\n',
    [[0, 10, 35, 46], [0, 0], [1, 1, 1], [0, 0, 1, 0]]],
  'a text with an invalid first line': [
    numbersOf(2, 1, 0, 1, 0, null, 0, 3, "a text begins with 'pim 1' or 'pim 2'"), '', [[0], [0], [], []]],
  'a rejected text': [
    numbersOf(1, 2, 86, 0, 2, { tasks: 3, mutexes: 1, steps: 3 }, 2, 3),
    '1 granted\n  task 1 at 40 ceiling 1\n2 refused deadlock but recorded granted\nrejected 2\n',
    [[0, 10, 35, 75, 86], [0, 0, 2], [1, 1, 2, 2], [0, 1, 0, 0]]],
  'since when a text is drawn': [4, 4, 4, 7, 7],
  'the picture of a short text': [
    0, 6, 3, 2, [0, 0, 1, 0, 3, 0, 2, 0, 1, 0, 3, 0],
    [[1, 1, 1, 1, 4, 0, 1, 2, 2, 3, 6, 0, 0, 3, 1, 2, 4, 0, 1, 3, 1, 4, 5, 0], [0, 0, 1, 2, 4], [0, 1, 1, 1]]],
  'bars in rows': [[1, 1, 1, 1, 3, 0, 1, 1, 2, 2, 5, 1, 1, 1, 3, 4, 8, 0, 1, 1, 4, 6, 7, 1], [0, 0, 4], [0, 2]],
  // What is still owned lasts until behind the last step.
  'bars up to a step': [[1, 1, 1, 1, 3, 0, 1, 1, 2, 2, 5, 1, 1, 1, 3, 4, 5, 0], [0, 0, 3], [0, 2]],
  // Three tasks of seven numbers and a mutex of five; the step that is rejected is refused. Task 1 executes at 40
  // instead of 10 and waits for nothing: a ceiling, 2, of no task, of mutex 1.
  'states from a step on': [1, 3, 52, [1, 0, 1, 1], [40, 10, 0, 2, 0, 1]],
  // Without a boost the last one is chosen.
  'the most boosted step': [2, 8, 1, 1],
  'calls that fail': ["Cannot destructure property 'tasks' of 'this.read' as it is undefined.", 'CALLED[call] is not a function', 'accepted 0\n'],
}

for (const [name, play] of Object.entries(SCENES)) {
  let got
  try { got = play(started()) } catch (error) { got = error.stack }
  console.log(JSON.stringify([name, JSON.stringify(got), JSON.stringify(WANTED[name])]))
}
