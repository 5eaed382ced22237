// judge.mjs PAGE: what judge.js sends to its worker and answers, with a worker and a clock that
// the scenes below drive. PAGE is the folder of the page's scripts. Prints a line of JSON for each
// scene: its name, what happened, and what was wanted.
import { readFileSync } from 'node:fs'

const source = readFileSync(`${process.argv[2]}/judge.js`, 'utf8')
const tick = () => new Promise(done => setImmediate(done))

/** A judge with a worker that answers when it is told to, and a clock that stands still. */
class Scene {
  constructor() {
    const scene = this
    this.sent = []
    this.ended = 0
    this.workers = []
    this.timers = new Map()
    class Worker {
      constructor(address) { scene.workers.push(this); this.address = address }
      postMessage(message) { scene.sent.push({ ...message, worker: scene.workers.indexOf(this) }) }
      terminate() { scene.ended++ }
    }
    class View {
      constructor(turn, text, lines, answer) { Object.assign(this, { turn, text, lines, answer }) }
    }
    const later = (call, wait) => { this.timers.set(call, wait); return call }
    const given = {
      Worker, View, PIM_WORKER: 'the worker', setTimeout: later, clearTimeout: it => this.timers.delete(it),
      URL: { createObjectURL: blob => blob }, Blob: class { constructor(parts, { type }) { this.said = [...parts, type] } },
    }
    const Judge = new Function(...Object.keys(given), `'use strict'\n${source}\nreturn Judge`)(...Object.values(given))
    this.judge = new Judge('the module')
  }

  look(text) { return this.kept(this.judge.look(text, [text])) }
  ask(view, ...words) { return this.kept(this.judge.ask(view, ...words)) }

  /** Keeps what a promise gave: `null`, a value, or the message of an error. */
  kept(promise) {
    const kept = { is: 'waiting' }
    promise.then(it => { kept.is = it }, error => { kept.is = `failed: ${error.message}` })
    return kept
  }

  async answer(n, more = { result: `answer ${n}` }) {
    const { id, worker } = this.sent[n]
    this.workers[worker].onmessage({ data: { id, ...more } })
    await tick()
  }

  /** Lets the time pass that all timers wait for. */
  async pass() {
    for (const [call] of [...this.timers]) {
      this.timers.delete(call)
      call()
    }
    await tick()
  }

  /** Opens a text, and returns its view. */
  async opened(text) {
    const view = this.look(text)
    await tick()
    await this.answer(this.sent.length - 1)
    return view.is
  }

  get calls() { return this.sent.map(({ call, given, worker }) => [call, ...given, worker]) }
}

const viewOf = ({ turn, text, lines, answer }) => [turn, text, lines, answer]

const SCENES = {
  async 'a text'(it) {
    const view = it.look('a')
    await tick()
    const [{ module }] = it.sent, { said } = it.workers[0].address
    await it.answer(0)
    return [it.calls, module, said, viewOf(view.is), it.timers.size, it.judge.isLast(view.is)]
  },
  async 'a newer text'(it) {
    const views = ['a', 'b', 'c'].map(text => it.look(text))
    await tick()
    const before = it.calls, [patience] = [...it.timers.values()]
    await it.answer(0)
    const timers = it.timers.size
    await it.answer(1)
    return [before, it.calls, patience, timers, views[0].is, views[1].is, viewOf(views[2].is), it.workers.length, it.ended]
  },
  async 'a slow text'(it) {
    const slow = it.look('a')
    await tick()
    const next = it.look('b')
    await tick()
    await it.pass()
    const calls = it.calls
    await it.answer(1)
    it.look('c')
    await tick()
    return [calls, slow.is, viewOf(next.is), it.calls.slice(2), it.workers.length, it.ended]
  },
  async 'slow again'(it) {
    for (const text of ['a', 'b', 'c']) { it.look(text); await tick(); await it.pass() }
    return [it.calls, it.workers.length, it.ended, it.timers.size]
  },
  async 'a question'(it) {
    const view = await it.opened('a'), states = it.ask(view, 'states', 3, 5)
    await tick()
    await it.answer(1)
    return [it.calls.slice(1), states.is]
  },
  async 'questions at once'(it) {
    const view = await it.opened('a'), both = [it.ask(view, 'bars', 7), it.ask(view, 'states', 3, 5)]
    await tick()
    await it.answer(2)
    await it.answer(1)
    return both.map(one => one.is)
  },
  async 'a question about an older text'(it) {
    const view = await it.opened('a')
    await it.opened('b')
    const states = it.ask(view, 'states', 3, 5)
    await tick()
    return [it.sent.length, states.is, it.judge.isLast(view)]
  },
  async 'an answer about an older text'(it) {
    const view = await it.opened('a'), states = it.ask(view, 'states', 3, 5)
    await tick()
    const next = it.look('b')
    await tick()
    const count = it.sent.length
    await it.answer(1)
    return [count, states.is, it.calls.slice(2), next.is]
  },
  async 'a text behind questions'(it) {
    const view = await it.opened('a')
    it.ask(view, 'bars', 7)
    it.ask(view, 'states', 3, 5)
    it.look('b')
    await tick()
    await it.answer(1)
    const count = it.sent.length
    await it.answer(2)
    return [count, it.calls.slice(3), it.workers.length]
  },
  async 'a call that fails'(it) {
    const view = it.look('a')
    await tick()
    await it.answer(0, { failed: 'no' })
    const next = await it.opened('b')
    return [view.is, viewOf(next)]
  },
  async 'a worker that fails'(it) {
    const view = await it.opened('a'), both = [it.ask(view, 'bars', 7), it.ask(view, 'states', 3, 5)]
    await tick()
    it.workers[0].onerror({ message: 'gone' })
    await tick()
    return [both.map(one => one.is), viewOf(await it.opened('b')), it.workers.length]
  },
}

const WANTED = {
  'a text': [
    [['look', 'a', 1, 0]], 'the module', ['the worker', 'text/javascript'], [1, 'a', ['a'], 'answer 0'], 0, true],
  // the last text alone is judged, as soon as the worker is free, for which it waits 200 milliseconds
  'a newer text': [
    [['look', 'a', 1, 0]], [['look', 'a', 1, 0], ['look', 'c', 3, 0]], 200, 0, null, null, [3, 'c', ['c'], 'answer 1'], 1, 0],
  'a slow text': [[['look', 'a', 1, 0], ['look', 'b', 2, 1]], null, [2, 'b', ['b'], 'answer 1'], [['look', 'c', 3, 1]], 2, 1],
  'slow again': [[['look', 'a', 1, 0], ['look', 'b', 2, 1], ['look', 'c', 3, 2]], 3, 2, 0],
  'a question': [[['states', 3, 5, 0]], 'answer 1'],
  'questions at once': ['answer 1', 'answer 2'],
  'a question about an older text': [2, null, false],
  'an answer about an older text': [2, null, [['look', 'b', 2, 0]], 'waiting'],
  'a text behind questions': [3, [['look', 'b', 2, 0]], 1],
  'a call that fails': ['failed: no', [2, 'b', ['b'], 'answer 1']],
  'a worker that fails': [['failed: gone', 'failed: gone'], [2, 'b', ['b'], 'answer 3'], 1],
}

for (const [name, play] of Object.entries(SCENES)) {
  const got = await play(new Scene()).catch(error => error.message)
  console.log(JSON.stringify([name, JSON.stringify(got), JSON.stringify(WANTED[name])]))
}
