// ---- the proved code -------------------------------------------------------------------
// The module's functions, and the layout of their structs (crates/pim_web/src, c/pim.h). It
// passes bytes and numbers on, and decides nothing.
const CALLS = {
  1: 'pim_lock', 2: 'pim_try', 3: 'pim_unlock', 4: 'pim_release_all', 5: 'pim_cancel',
  6: 'pim_set_base', 7: 'pim_set_ceiling',
}
const CANCEL = 5, SET_BASE = 6
const REFUSED = 8n // the kind of an answer to a step
const SENTENCE_ROOM = 256 // bytes
const MAX_TASKS = 256, MAX_MUTEXES = 256, MAX_STEPS = 65536

/** The module's memory, and buffers in it. */
class Memory {
  constructor(pim) { this.pim = pim }

  /** Returns the address of n bytes. */
  room(n) {
    const at = this.pim.pim_room(BigInt(n))
    if (at === 0n) throw Error('out of memory')
    return at
  }

  /** Returns a view of the memory, a new one if the memory has grown. */
  get view() {
    const { buffer } = this.pim.memory
    if (this.last?.buffer !== buffer) this.last = new DataView(buffer)
    return this.last
  }

  u16(at, place) { return this.view.getUint16(Number(at) + 2 * place, true) }
  u32(at, place) { return this.view.getUint32(Number(at) + 4 * place, true) }
  u64(at, place) { return Number(this.view.getBigUint64(Number(at) + 8 * place, true)) }
  bytes(at, n) { return new Uint8Array(this.pim.memory.buffer, Number(at), n) }
}

/** The judge of texts, and a manager that makes the steps of the text that was opened last. */
class Engine {
  constructor(module, reportRoom = REPORT_ROOM) {
    this.reportRoom = reportRoom
    this.pim = new WebAssembly.Instance(module, {}).exports
    this.memory = new Memory(this.pim)
    const room = n => this.memory.room(n)
    this.out = room(32)
    this.bases = room(2 * MAX_TASKS)
    this.protocols = room(4 * MAX_MUTEXES)
    this.steps = room(8 * MAX_STEPS)
    this.waiters = room(16 * MAX_TASKS)
    this.report = room(reportRoom)
    this.sentence = room(SENTENCE_ROOM)
    this.handle = room(8)
    this.memory.view.setBigUint64(Number(this.handle), 0n, true)
  }

  /** Calls a function with the address and the length of a text's bytes. */
  withBytes(bytes, call) {
    const at = this.memory.room(bytes.length)
    this.memory.bytes(at, bytes.length).set(bytes)
    call(at, BigInt(bytes.length))
    this.pim.pim_room_back(at)
  }

  /** pim_judge: the kind, the number, the report's length, and the report as far as it is shown. */
  judge(text) { return this.judgeBytes(new TextEncoder().encode(text)) }

  judgeBytes(bytes) {
    this.withBytes(bytes, (at, n) =>
      this.pim.pim_judge(this.out, at, n, this.report, BigInt(this.reportRoom)))
    const [kind, number] = [this.memory.u32(this.out, 0), this.memory.u32(this.out, 1)]
    const length = this.memory.u64(this.out, 1)
    const shown = this.memory.bytes(this.report, Math.min(length, this.reportRoom))
    return { kind, number, length, report: new TextDecoder().decode(shown.slice()) }
  }

  /** pim_explain: why a line of the text is invalid, or nothing if an allocation failed. */
  explain(text, line) { return this.explainBytes(new TextEncoder().encode(text), line) }

  explainBytes(bytes, line) {
    let length = 0
    this.withBytes(bytes, (at, n) => {
      length = this.pim.pim_explain(at, n, line, this.sentence, BigInt(SENTENCE_ROOM))
    })
    const written = this.memory.bytes(this.sentence, Math.min(Number(length), SENTENCE_ROOM))
    return new TextDecoder().decode(written.slice())
  }

  /** pim_read: the numbers of tasks, mutexes and steps of a valid text, else null. */
  open(text) {
    const rooms = [[this.bases, MAX_TASKS], [this.protocols, MAX_MUTEXES], [this.steps, MAX_STEPS]]
    this.withBytes(new TextEncoder().encode(text), (at, n) =>
      this.pim.pim_read(this.out, at, n, ...rooms.flatMap(([to, most]) => [to, BigInt(most)])))
    if (this.memory.u32(this.out, 0) !== ACCEPTED) return null
    const [tasks, mutexes, steps] = [1, 2, 3].map(place => this.memory.u64(this.out, place))
    this.read = { tasks, mutexes, steps }
    return this.begin() ? this.read : null
  }

  /** pim_make: goes back to the start of the text. Returns whether there was memory for it. */
  begin() {
    const { tasks, mutexes } = this.read
    this.made = 0
    this.pim.pim_drop(this.handle)
    return !this.pim.pim_make(
      this.handle, this.bases, BigInt(tasks), this.protocols, BigInt(mutexes))
  }

  /** Goes to where k steps are made. */
  to(k) {
    if (k < this.made && !this.begin()) throw Error('out of memory')
    while (this.made < k) this.step(this.made + 1)
  }

  /** Returns the numbers of step k, from 1 on: the task, the operation, and what it names. */
  numbers(k) { return [0, 1, 2, 3].map(i => this.memory.u16(this.steps, 4 * (k - 1) + i)) }

  /** Makes step k of the text, the next one. Returns who made it, and whether it was refused. */
  step(k) {
    const [actor, op, ...named] = this.numbers(k)
    const call = this.pim[CALLS[op]]
    const answer = call(this.handle, actor, ...named.slice(0, call.length - 2))
    this.made = k
    return { actor, refused: (answer & 255n) === REFUSED }
  }

  /** Writes what the getters say now into the numbers from this place on, as States reads them. */
  write(numbers, place) {
    const { tasks, mutexes } = this.read
    for (let t = 1; t <= tasks; t++) place = this.writeTask(numbers, place, t)
    let waiting = place + MUTEX_PARTS * mutexes
    for (let m = 1; m <= mutexes; m++) {
      place = this.writeMutex(numbers, place, m)
      const count = numbers[place - 1]
      for (let i = 0; i < count; i++) numbers[waiting++] = this.memory.u16(this.waiters, 8 * i)
    }
  }

  writeTask(numbers, place, t) {
    numbers[place++] = this.pim.pim_effective_prio(this.handle, t)
    numbers[place++] = this.pim.pim_base_prio(this.handle, t)
    numbers[place++] = this.pim.pim_waits_for(this.handle, t)
    // 16 bits each: the kind, the task and the mutex
    const reason = Number(BigInt.asUintN(48, this.pim.pim_task_reason(this.handle, t)))
    for (let part = 0; part < 3; part++) {
      numbers[place++] = Math.floor(reason / 65536 ** part) % 65536
    }
    return place
  }

  writeMutex(numbers, place, m) {
    const protocol = this.pim.pim_mutex_protocol(this.handle, m) >>> 0
    numbers[place++] = this.pim.pim_owner(this.handle, m)
    numbers[place++] = this.pim.pim_lock_count(this.handle, m)
    numbers[place++] = protocol & 0xffff
    numbers[place++] = protocol >>> 16
    numbers[place++] = Number(
      this.pim.pim_waiters(this.handle, m, this.waiters, BigInt(MAX_TASKS)))
    return place
  }

  /** Returns the states after the steps from one to before another, as States reads them. */
  states(from, past) {
    const { tasks, mutexes } = this.read, size = sizeOf(this.read)
    const numbers = new Uint16Array(size * (past - from)), made = new Uint16Array(2 * (past - from))
    this.to(Math.max(0, from - 1))
    for (let k = from; k < past; k++) {
      const { actor, refused } = k ? this.step(k) : { actor: 0, refused: false }
      made.set([actor, refused], 2 * (k - from))
      this.write(numbers, size * (k - from))
    }
    return { from, past, tasks, mutexes, numbers, made }
  }

  /** Lists from which step to which a task owns a mutex or waits for one, up to the last step. */
  bars(last) {
    const { tasks, mutexes } = this.read, { pim_owner, pim_waits_for } = this.pim, found = []
    const owners = new Uint16Array(mutexes + 1), waits = new Uint16Array(tasks + 1)
    const since = { owners: new Uint32Array(mutexes + 1), waits: new Uint32Array(tasks + 1) }
    const own = (m, k, next) => {
      if (owners[m]) found.push(1, owners[m], m, since.owners[m], k)
      owners[m] = next
      since.owners[m] = k
    }
    const wait = (t, k, next) => {
      if (waits[t]) found.push(0, t, waits[t], since.waits[t], k)
      waits[t] = next
      since.waits[t] = k
    }
    for (let k = 0; k <= last; k++) {
      this.to(k)
      for (let m = 1; m <= mutexes; m++) {
        const owner = pim_owner(this.handle, m)
        if (owner !== owners[m]) own(m, k, owner)
      }
      for (let t = 1; t <= tasks; t++) {
        const mutex = pim_waits_for(this.handle, t)
        if (mutex !== waits[t]) wait(t, k, mutex)
      }
    }
    for (let m = 1; m <= mutexes; m++) own(m, last + 1, 0)
    for (let t = 1; t <= tasks; t++) wait(t, last + 1, 0)
    return Uint32Array.from(found)
  }

  /** Returns for each task whether a step names it. */
  named() {
    const { tasks, steps } = this.read, found = new Uint8Array(tasks + 1)
    for (let k = 1; k <= steps; k++) {
      const [actor, op, first] = this.numbers(k)
      found[actor] = 1
      if (op === CANCEL || op === SET_BASE) found[first] = 1
    }
    return found
  }

  /** Returns the first step up to the last after which most tasks are boosted, or the last. */
  mostBoosted(last) {
    const { tasks } = this.read, { pim_effective_prio, pim_base_prio } = this.pim
    let most = 0, best = last
    for (let k = 0; k <= last; k++) {
      this.to(k)
      let count = 0
      for (let t = 1; t <= tasks; t++) {
        if (pim_effective_prio(this.handle, t) > pim_base_prio(this.handle, t)) count++
      }
      if (count > most) [most, best] = [count, k]
    }
    return best
  }
}
