// ---- the worker: it judges, and makes the steps ----------------------------------------
const MOST_SEARCHED = 400_000 // tasks, over all steps, in the search for the most boosted
const MOST_AT_ONCE = 100_000  // numbers of states that come with the report

/** Returns where the lines of a report begin, the line of each step, and the step of each line. */
function linesOf(report, last) {
  const starts = [0], steps = [], places = new Uint32Array(last + 1)
  for (let at = 0; (at = report.indexOf('\n', at) + 1);) starts.push(at)
  for (let i = 0, k = 0; i + 1 < starts.length; i++) {
    const code = report.charCodeAt(starts[i])
    if (code >= 48 && code <= 57) places[++k] = i
    steps[i] = k
  }
  return { starts: Uint32Array.from(starts), places, steps: Uint32Array.from(steps) }
}

/** Returns the lines of a text before this one, numbered from 1 on. */
function before(text, line) {
  let at = 0
  for (let i = 1; i < line; i++) at = text.indexOf('\n', at) + 1
  return text.slice(0, at)
}

let latest = { front: null, turn: 0 } // what is judged and drawn, and since which turn

/** Judges a text. Of an invalid one, what is above the invalid line is judged too, and drawn. */
function look(text, turn) {
  const judged = engine.judge(text), invalid = judged.kind === INVALID ? judged.number : 0
  const front = invalid ? before(text, invalid) : text
  const drawn = invalid ? engine.judge(front) : judged
  const read = drawn.kind <= REJECTED ? engine.open(front) : null
  const rejected = drawn.kind === REJECTED ? drawn.number : 0
  const last = read ? rejected || read.steps : 0
  const { kind, number, length } = judged
  if (front !== latest.front) latest = { front, turn }
  return {
    kind, number, length, invalid, reason: invalid ? engine.explain(text, invalid) : '',
    rejected, read, last, ...picture(read, last), since: latest.turn,
    report: drawn.report, ...linesOf(drawn.report, last), named: read ? engine.named() : null,
  }
}

/** Returns what a picture of a short text needs: all states and bars. */
function picture(read, last) {
  if (!read || (last + 1) * sizeOf(read) > MOST_AT_ONCE) return { states: null, bars: null }
  return { states: engine.states(0, last + 1), bars: bars(last) }
}

/** Returns the first step after which most tasks are boosted, among as many as are searched. */
function mostBoosted(last) {
  const most = Math.floor(MOST_SEARCHED / Math.max(1, engine.read.tasks))
  return last <= most ? engine.mostBoosted(last) : engine.mostBoosted(most)
}

/** Returns the bars of each task in the order of their steps, each in a row that is free. */
function bars(last) {
  const found = engine.bars(last), { tasks } = engine.read
  const of_tasks = Array.from({ length: tasks + 1 }, () => [])
  for (let i = 0; i < found.length; i += BAR_PARTS - 1) {
    const [owns, t, m, from, to] = found.subarray(i, i + BAR_PARTS - 1)
    of_tasks[t].push([owns, t, m, from, to, 0])
  }
  const rows = Uint16Array.from(of_tasks, placeBars), sorted = of_tasks.flat()
  const numbers = new Uint32Array(BAR_PARTS * sorted.length)
  sorted.forEach((bar, i) => numbers.set(bar, BAR_PARTS * i))
  let begin = 0
  const begins = Uint32Array.from([...of_tasks, []], it => (begin += it.length) - it.length)
  return { numbers, begins, rows }
}

/** Gives each bar of a task a row, and returns how many rows there are. */
function placeBars(bars) {
  const ends = []
  bars.sort((a, b) => a[3] - b[3] || a[2] - b[2])
  for (const bar of bars) {
    const free = ends.findIndex(end => end <= bar[3])
    bar[5] = free < 0 ? ends.length : free
    ends[bar[5]] = bar[4]
  }
  return ends.length
}

const CALLED = { look, mostBoosted, bars, states: (from, past) => engine.states(from, past) }

/** Lists the memory of the numbers in an answer, which the page takes over without a copy. */
function memoryOf(it) {
  if (ArrayBuffer.isView(it)) return [it.buffer]
  return it && typeof it === 'object' ? Object.values(it).flatMap(memoryOf) : []
}

let engine
onmessage = ({ data: { id, call, given, module } }) => {
  try {
    engine ??= new Engine(module)
    const result = CALLED[call](...given)
    postMessage({ id, result }, memoryOf(result))
  } catch (error) {
    postMessage({ id, failed: String(error.message) })
  }
}
