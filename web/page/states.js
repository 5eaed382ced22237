// ---- what the worker hands to the page: numbers, and what they are ----------------------
const ACCEPTED = 0, REJECTED = 1, INVALID = 2
const PROTOCOLS = ['none', 'inherit', 'protect', 'inherit recursive']
const REASONS = ['', 'base', 'ceiling', 'waiter']
const TASK_PARTS = 6, MUTEX_PARTS = 5, BAR_PARTS = 6
const REPORT_ROOM = 1 << 22 // bytes of a report that are shown

/** Returns how many numbers a state has: its tasks, its mutexes, and the waiters of all queues. */
const sizeOf = ({ tasks, mutexes }) => (TASK_PARTS + 1) * tasks + MUTEX_PARTS * mutexes

/** The states after some steps of a text, and who made each step. */
class States {
  constructor(found) {
    Object.assign(this, found)
    this.size = sizeOf(found)
  }

  has(k) { return k >= this.from && k < this.past }

  task(k, i) {
    const at = (k - this.from) * this.size + i * TASK_PARTS, it = this.numbers
    return {
      prio: it[at], base: it[at + 1], waits: it[at + 2],
      why: REASONS[it[at + 3]], of: it[at + 4], by: it[at + 5],
    }
  }

  mutex(k, i) {
    const at = (k - this.from) * this.size + this.tasks * TASK_PARTS + i * MUTEX_PARTS
    const [owner, count, kind, ceiling, waiting] = this.numbers.subarray(at, at + MUTEX_PARTS)
    return { owner, count, kind: PROTOCOLS[kind], ceiling, waiting }
  }

  /** Returns each task and each mutex, with its queue. */
  at(k) {
    let waiting = (k - this.from) * this.size + this.tasks * TASK_PARTS + this.mutexes * MUTEX_PARTS
    const mutexes = Array.from({ length: this.mutexes }, (_, i) => {
      const it = this.mutex(k, i), queue = [...this.numbers.subarray(waiting, waiting + it.waiting)]
      waiting += it.waiting
      return { ...it, queue }
    })
    return { tasks: Array.from({ length: this.tasks }, (_, i) => this.task(k, i)), mutexes }
  }

  /** Returns who made step k, or 0, and whether it was refused. */
  maker(k) {
    const at = 2 * (k - this.from)
    return { actor: this.made[at], refused: this.made[at + 1] === 1 }
  }
}
