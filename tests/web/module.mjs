// module.mjs PAGE WASM FOLDER: judges the texts 0, 1, .. of a folder in the page's module.
//
// PAGE is the folder of the page's scripts. Prints a line of JSON for each text: kind, number, the
// report's SHA-256, how many states that the getters give differ from the report, and how many bars
// differ from the states. Then one line for what calls write, with what is wrong or null for each; one
// for a module whose memory is 6 MiB at most; and one for its heap.
import { createHash } from 'node:crypto'
import { existsSync, readFileSync } from 'node:fs'

const [scripts, wasmFile, folder] = process.argv.slice(2)
const script = ['states', 'engine'].map(name => readFileSync(`${scripts}/${name}.js`, 'utf8')).join('\n')
const { Engine, States } = new Function(`'use strict'\n${script}\nreturn { Engine, States }`)()
const wasm = readFileSync(wasmFile)
const MOST_STATES = 300

/** Returns a number of a module, and where it ends. */
function leb(bytes, at) {
  let value = 0, shift = 0, end = at
  do { value += (bytes[end] & 127) * 2 ** shift; shift += 7 } while (bytes[end++] & 128)
  return [value, end]
}

/** Returns the module with this most of pages in its section of memories. */
function limited(bytes, pages) {
  for (let at = 8; at < bytes.length;) {
    const [size, begin] = leb(bytes, at + 1)
    if (bytes[at] === 5) {
      const least = bytes.subarray(begin + 2, begin + size)
      const section = [1, 5, ...least, pages]
      return Buffer.concat([bytes.subarray(0, at), Buffer.from([5, section.length, ...section]),
        bytes.subarray(begin + size)])
    }
    at = begin + size
  }
  throw Error('no memory')
}

/** Returns for each step the lines of a report that are about it. */
function linesOfSteps(report) {
  const steps = []
  for (const line of report.split('\n').slice(0, -2)) {
    if (/^\d/.test(line)) steps.push([])
    else steps[steps.length - 1].push(line)
  }
  return steps
}

/** Says in the report's words why a task executes at its priority. */
function told(t, { prio, why, of, by }) {
  const reason = { base: 'base', ceiling: `ceiling ${by}`, waiter: `waiter ${of} mutex ${by}` }[why]
  return `  task ${t} at ${prio} ${reason}`
}

/** Counts the steps after which the getters' answers aren't those of the report. */
function wrongStates(states, report, made) {
  const tasks = k => states.at(k).tasks
  return linesOfSteps(report).slice(0, made).filter((lines, i) => {
    const before = tasks(i)
    const changed = tasks(i + 1).flatMap((it, t) => it.prio === before[t].prio ? [] : [told(t + 1, it)])
    return changed.join('\n') !== lines.join('\n')
  }).length
}

/** Counts the owners and waits of the states that aren't those of the bars, and the bars of no state. */
function wrongBars(engine, states, made) {
  const bars = engine.bars(made), said = new Set()
  for (let i = 0; i < bars.length; i += 5) {
    const [owns, t, m, from, to] = bars.subarray(i, i + 5)
    for (let k = from; k < to; k++) said.add([owns, t, m, k].join(' '))
  }
  let wrong = 0
  for (let k = 0; k <= made; k++) {
    const { tasks, mutexes } = states.at(k)
    const held = mutexes.flatMap((it, m) => it.owner ? [[1, it.owner, m + 1, k].join(' ')] : [])
    const waits = tasks.flatMap((it, t) => it.waits ? [[0, t + 1, it.waits, k].join(' ')] : [])
    for (const it of [...held, ...waits]) if (!said.delete(it)) wrong++
  }
  return wrong + said.size
}

/** Counts what the page draws otherwise than the report and the getters say: states, and bars. */
function wrongPictures(engine, text, report, made) {
  engine.open(text)
  const whole = new States(engine.states(0, made + 1))
  // The states of some steps are the same as among all, after the steps were made before.
  const from = made >> 1, part = engine.states(from, made + 1)
  const same = Buffer.from(part.numbers.buffer).equals(
    Buffer.from(whole.numbers.buffer, 2 * from * whole.size))
  return [wrongStates(whole, report, made) + (same ? 0 : 1), wrongBars(engine, whole, made)]
}

const engine = new Engine(new WebAssembly.Module(wasm), 1 << 27)
for (let n = 0; existsSync(`${folder}/${n}`); n++) {
  const bytes = readFileSync(`${folder}/${n}`)
  const { kind, number, length, report } = engine.judgeBytes(bytes)
  const hash = createHash('sha256').update(report).digest('hex')
  // The step that is rejected has no lines of its tasks.
  const made = Math.min(MOST_STATES, kind === 0 ? number : number - 1)
  const isDrawn = kind < 2 && length < 1 << 20
  const wrong = isDrawn ? wrongPictures(engine, bytes.toString(), report, made) : [0, 0]
  const reason = kind === 2 ? engine.explainBytes(bytes, number) : ''
  console.log(JSON.stringify([kind, number, reason, hash, ...wrong]))
}

// ---- what pim_judge, pim_read and pim_explain write

const MARK = 0x2d // '-', in each byte that no call wrote
const BOOSTED = 'pim 1\ntask 1 10\nmutex 1 protect 40\n1 lock 1\n'
const BOOSTED_REPORT = '1 granted\n  task 1 at 40 ceiling 1\naccepted 1\n'
const PARTS = 'pim 2\ntask 1 10\ntask 2 50\nmutex 1 none\nmutex 2 inherit\nmutex 3 protect 60\n' +
  'mutex 4 inherit recursive\n1 lock 3\n2 try 4\n3 unlock 5\n1 release = released 1\n2 cancel 1\n' +
  '1 base 2 20\n2 ceil 3 70\n'

// a text, the room for its report, and what is written: kind, number and length, and the report
const JUDGED = {
  'a long buffer has the report at its front': [BOOSTED, 47, [0, 1, 46], BOOSTED_REPORT],
  'a short buffer has the front of the report': [BOOSTED, 4, [0, 1, 46], '1 gr'],
  'a report without a buffer has a length': [BOOSTED, 0, [0, 1, 46], ''],
  'an invalid line has no report': ['pim 1\ntask 1 10\n1 lokc 1\n', 8, [2, 3, 0], ''],
  'an empty text is invalid at line 1': ['', 8, [2, 1, 0], ''],
}

// a text, a line, the room for a sentence, its length, and what is written
const EXPLAINED = {
  'a long buffer has the sentence at its front': ['pim 1\n\n', 2, 40, 29, 'an empty line; there are none'],
  'a short buffer has the front of the sentence': ['pim 1\n\n', 2, 8, 29, 'an empty'],
  'a sentence without a buffer has a length': ['pim 1\n\n', 2, 0, 29, ''],
  'a line that a text lacks has a sentence': ['pim 1\n', 9, 30, 29, "it isn't a line of the format"],
}

// a text, the rooms for its parts, and what is written: kind, line and counts; bases, protocols and steps
const READ = {
  'each part is read as its numbers': [PARTS, [3, 5, 8], [0, 0, 2, 4, 7], [
    [10, 50],
    [[0, 0], [1, 0], [2, 60], [3, 0]],
    [[1, 1, 3, 0], [2, 2, 4, 0], [3, 3, 5, 0], [1, 4, 0, 0], [2, 5, 1, 0], [1, 6, 2, 20], [2, 7, 3, 70]]]],
  'short buffers have the first parts': [PARTS, [1, 0, 1], [0, 0, 2, 4, 7], [[10], [], [[1, 1, 3, 0]]]],
  'an invalid line has no parts': ['pim 1\ntask 1 10\ntask 3 10\n', [2, 2, 2], [2, 3, 0, 0, 0], [[], [], []]],
}

/** Returns the address of marked bytes: so many, and 16 behind them, which no call may write. */
function marked(bytes) {
  const at = engine.memory.room(bytes + 16)
  engine.memory.bytes(at, bytes + 16).fill(MARK)
  return at
}

/** Says where what is written from an address on differs from the wanted bytes and the marks behind them, or null. */
function wrongBytes(at, room, wanted) {
  const got = Buffer.from(engine.memory.bytes(at, room + 16))
  const whole = Buffer.concat([Buffer.from(wanted), Buffer.alloc(room + 16 - wanted.length, MARK)])
  return got.equals(whole) ? null : `${got.toString('hex')} in place of ${whole.toString('hex')}`
}

/** Says which number differs, or returns null. */
function wrongNumbers(got, wanted) {
  return got.join(' ') === wanted.join(' ') ? null : `${got.join(' ')} in place of ${wanted.join(' ')}`
}

function wrongJudged([text, room, numbers, report]) {
  const { memory, pim, out } = engine, to = marked(room)
  engine.withBytes(Buffer.from(text), (at, n) => pim.pim_judge(out, at, n, to, BigInt(room)))
  const got = [memory.u32(out, 0), memory.u32(out, 1), memory.u64(out, 1)]
  return wrongNumbers(got, numbers) ?? wrongBytes(to, room, Buffer.from(report))
}

function wrongExplained([text, line, room, length, sentence]) {
  const { pim } = engine, to = marked(room)
  let got
  engine.withBytes(Buffer.from(text), (at, n) => { got = pim.pim_explain(at, n, line, to, BigInt(room)) })
  return wrongNumbers([got], [length]) ?? wrongBytes(to, room, Buffer.from(sentence))
}

function wrongRead([text, rooms, numbers, parts]) {
  const { memory, pim, out } = engine, bytes = [2, 4, 8].map((size, i) => size * rooms[i])
  const to = bytes.map(marked), buffers = to.flatMap((at, i) => [at, BigInt(rooms[i])])
  engine.withBytes(Buffer.from(text), (at, n) => pim.pim_read(out, at, n, ...buffers))
  const got = [memory.u32(out, 0), memory.u32(out, 1), ...[1, 2, 3].map(place => memory.u64(out, place))]
  const wrong = parts.map((part, i) =>
    wrongBytes(to[i], bytes[i], Buffer.from(Uint16Array.from(part.flat()).buffer)))
  return wrongNumbers(got, numbers) ?? wrong.find(why => why) ?? null
}

const wrongCalls = Object.entries(JUDGED).map(([name, row]) => [`pim_judge: ${name}`, wrongJudged(row)])
wrongCalls.push(...Object.entries(READ).map(([name, row]) => [`pim_read: ${name}`, wrongRead(row)]))
wrongCalls.push(...Object.entries(EXPLAINED).map(([name, row]) => [`pim_explain: ${name}`, wrongExplained(row)]))
console.log(JSON.stringify(wrongCalls))

const small = new Engine(new WebAssembly.Module(limited(wasm, 96)), 1 << 12)
const huge = `pim 1\ntask 1 1\n${'1 lock 1\n'.repeat(65536)}`
const kinds = ['pim 1\n', huge, 'pim 1\ntask 1 10\n1 lock 1\n', huge, 'pim 1\n'].map(text => {
  try { return small.judge(text).kind } catch (error) { return error.message }
})
console.log(JSON.stringify(kinds))

/** Takes and gives back blocks at random, each full of its own mark. Returns what is wrong first, or null. */
function wrongHeap(pim) {
  const bytes = () => new Uint8Array(pim.memory.buffer), blocks = []
  let seed = 7
  const draw = n => (seed = seed * 48271 % 2147483647) % n
  const isIntact = ({ at, size, mark }) => bytes().subarray(at, at + size).every(byte => byte === mark)
  const take = mark => {
    const size = draw(8) ? draw(300) : draw(100_000), at = Number(pim.pim_room(BigInt(size)))
    bytes().fill(mark, at, at + size)
    blocks.push({ at, size, mark })
    return at > 0 && at % 16 === 0
  }
  for (let i = 0; i < 20_000; i++) {
    if (blocks.length < 100 && (!blocks.length || draw(2))) {
      if (!take(i % 255 + 1)) return `a block isn't aligned, or there is none`
    } else {
      const [it] = blocks.splice(draw(blocks.length), 1)
      if (!isIntact(it)) return `a block of ${it.size} bytes was changed`
      pim.pim_room_back(BigInt(it.at))
    }
  }
  for (const it of blocks) {
    if (!isIntact(it)) return `a block of ${it.size} bytes was changed`
    pim.pim_room_back(BigInt(it.at))
  }
  // All is one block again, but for what is below the heap: the stack and the data.
  const all = bytes().length
  if (!pim.pim_room(BigInt(all - (1 << 19))) || bytes().length > all) return 'neighbours are apart'
  // -1n is the largest number of bytes, which nothing may be added to.
  return pim.pim_room(1n << 50n) || pim.pim_room(-1n) ? 'a block larger than any memory' : null
}

console.log(JSON.stringify(wrongHeap(new WebAssembly.Instance(new WebAssembly.Module(wasm), {}).exports)))
