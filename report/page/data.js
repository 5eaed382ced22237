// ---- the recording, as pack.py wrote it: columns of numbers, a lane for each thread

export const OWN = 0, WAIT = 1, BLOCKED = 2

const inTime = (one, other) => one.begin - other.begin

/** Reads numbers of 7 bits a byte. */
class Reader {
  constructor(bytes) {
    this.bytes = bytes
    this.at = 0
  }

  next() {
    let number = 0, size = 1
    for (;;) {
      const byte = this.bytes[this.at++]
      number += (byte & 127) * size
      if (byte < 128) return number
      size *= 128
    }
  }
}

/** Returns the bytes of a text in base64 that is deflated. */
async function unpacked(text) {
  const packed = Uint8Array.from(atob(text), letter => letter.charCodeAt(0))
  const stream = new Blob([packed]).stream().pipeThrough(new DecompressionStream('deflate'))
  return new Uint8Array(await new Response(stream).arrayBuffer())
}

/** Bars that don't overlap, in the order of time, and how long they last up to each. */
class Row {
  constructor(bars) {
    const n = this.count = bars.length
    this.bars = bars
    this.begin = Float64Array.from(bars, bar => bar.begin)
    this.end = Float64Array.from(bars, bar => bar.end)
    this.owned = new Float64Array(n + 1)
    this.waited = new Float64Array(n + 1)
    bars.forEach((bar, i) => {
      const time = bar.end - bar.begin
      this.owned[i + 1] = this.owned[i] + (bar.kind === OWN ? time : 0)
      this.waited[i + 1] = this.waited[i] + (bar.kind === OWN ? 0 : time)
    })
  }
}

/** Returns the first place in a sorted column, from one on, whose value is above a time. */
export function above(column, time, from = 0, to = column.length) {
  let step = 1, low = from
  while (low + step < to && column[low + step] <= time) { low += step; step *= 2 }
  let high = Math.min(to, low + step)
  while (low < high) {
    const middle = (low + high) >> 1
    if (column[middle] <= time) low = middle + 1
    else high = middle
  }
  return low
}

/** Returns stretches as columns: when each begins and ends, and how long those before it last. */
function stretches(of) {
  const sum = new Float64Array(of.length + 1)
  of.forEach((it, i) => { sum[i + 1] = sum[i] + it.end - it.begin })
  const column = key => Float64Array.from(of, it => it[key])
  return { begin: column('begin'), end: column('end'), sum, of }
}

/** A thread: its bars in rows, when it was held up, when it ran, and what it got. */
class Lane {
  constructor(thread, index) {
    Object.assign(this, thread)
    this.index = index
  }

  read(reader, { columns, windows, ended }) {
    const rows = []
    let at = 0
    for (let n = reader.next(); n > 0; n--) {
      at += reader.next()
      const end = at + reader.next(), code = reader.next(), kind = code % 3
      const row = Math.floor(code / 3), [what, place] = [reader.next(), reader.next()]
      const bar = { lane: this, kind, begin: at, end, row, what, place }
      if (kind === WAIT) this.readWait(bar, reader)
      if (kind === BLOCKED) this.readBlocked(bar, reader)
      ;(rows[row] ??= []).push(bar)
    }
    this.rows = rows.map(bars => new Row(bars))
    this.waits = rows.flat().filter(bar => bar.kind === WAIT).sort(inTime)
    const late = this.waits.flatMap(wait => wait.late.map(it => ({ ...it, wait })))
    this.late = stretches(late)
    this.cause = stretches([])
    this.waitBegins = Float64Array.from(this.waits, it => it.begin)
    this.readStays(reader)
    this.readLevels(reader, ended)
    const shares = () => windows ? Uint8Array.from({ length: columns }, () => reader.next()) : null
    this.ownShares = shares()
    this.stayShares = shares()
  }

  readWait(bar, reader) {
    const names = ['level', 'gets', 'owner', 'ownerLevel', 'taken', 'open', 'lower', 'stalled']
    for (const name of names) bar[name] = reader.next()
    let at = bar.begin
    bar.late = Array.from({ length: reader.next() }, () => {
      const begin = at + reader.next()
      at = begin + reader.next()
      return { begin, end: at, mutex: reader.next(), runner: reader.next() }
    })
    bar.inverted = bar.late.reduce((sum, it) => sum + it.end - it.begin, 0)
    bar.meanwhile = Array.from({ length: reader.next() }, () => {
      const [lane, level, time] = [reader.next(), reader.next(), reader.next()]
      return { lane, level, time }
    })
  }

  readBlocked(bar, reader) {
    for (const name of ['level', 'by', 'byLevel', 'ended', 'open', 'how']) bar[name] = reader.next()
  }

  readStays(reader) {
    const n = reader.next(), [begin, end, sum] = [n, n, n + 1].map(it => new Float64Array(it))
    let at = 0
    for (let i = 0; i < n; i++) {
      begin[i] = at += reader.next()
      end[i] = at + reader.next()
      sum[i + 1] = sum[i] + end[i] - at
    }
    this.stays = { begin, end, sum }
  }

  /** Reads what the thread got, as stretches in which it was boosted, and its own levels. */
  readLevels(reader, ended) {
    const boosts = [], levels = [{ time: 0, level: this.level }]
    let at = 0
    for (let n = reader.next(); n > 0; n--) {
      at += reader.next()
      const gets = reader.next(), level = reader.next(), last = boosts[boosts.length - 1]
      if (last && last.end === null) last.end = at
      if (gets > level) boosts.push({ begin: at, end: null, gets, level })
      if (level !== levels[levels.length - 1].level) levels.push({ time: at, level })
    }
    const closed = boosts.map(it => ({ ...it, end: it.end ?? ended }))
    this.boosts = stretches(closed.filter(it => it.end > it.begin))
    this.levels = levels
    at = 0
    this.ran = Array.from({ length: reader.next() }, () => {
      at += reader.next()
      return { begin: at, end: at + reader.next(), level: reader.next(), gets: reader.next() }
    })
  }

  /** Returns the wait for a mutex that goes on at a time, or undefined. */
  waitAt(time) {
    const wait = this.waits[above(this.waitBegins, time) - 1]
    return wait?.end > time ? wait : undefined
  }

  /** Returns the level of its own at a time. */
  levelAt(time) { return this.levels.findLast(it => it.time <= time).level }

  /** Returns the highest level that it had while a bar lasted. */
  highestIn({ begin, end, level }) {
    const later = this.levels.filter(({ time }) => begin <= time && time < end)
    return Math.max(level, ...later.map(it => it.level))
  }

  /** Returns what it gets at a time: its level, unless it is boosted. */
  getsAt(time) {
    const boost = this.boosts.of[above(this.boosts.end, time)]
    return boost?.begin <= time ? boost.gets : this.levelAt(time)
  }
}

/** A recording. */
export class Recording {
  static async of(data) {
    const it = new Recording()
    Object.assign(it, data, { packed: null })
    const reader = new Reader(await unpacked(data.packed))
    it.lanes = data.threads.map((thread, index) => new Lane(thread, index))
    for (const lane of it.lanes) lane.read(reader, data)
    for (const finding of it.findings) {
      finding.spots = Array.from({ length: reader.next() }, () => {
        const [lane, begin, lasted, inverted] = Array.from({ length: 4 }, () => reader.next())
        return { lane, begin, end: begin + lasted, inverted }
      })
    }
    it.owners = it.ownersOf()
    it.markCauses()
    it.hasStays = it.lanes.some(lane => lane.stays.begin.length)
    return it
  }

  /** Returns by mutex the bars that own it, in the order of time. */
  ownersOf() {
    const found = this.mutexes.map(() => [])
    for (const lane of this.lanes) {
      const owns = lane.rows.flatMap(row => row.bars.filter(bar => bar.kind === OWN))
      for (const bar of owns) found[bar.what].push(bar)
    }
    for (const bars of found) bars.sort(inTime)
    return found
  }

  /** Marks in the lane of each runner when it held up another. */
  markCauses() {
    for (const lane of this.lanes) {
      for (const it of lane.late.of) {
        const way = this.wayOf(it.wait, it.begin), row = way[way.length - 1]?.to.row ?? 0
        this.lanes[it.runner].cause.of.push({ ...it, row })
      }
    }
    for (const lane of this.lanes) lane.cause = stretches(lane.cause.of.sort(inTime))
  }

  /** Returns the bar that owns a mutex at a time, or null. */
  ownerAt(mutex, time) {
    const bars = this.owners[mutex]
    let low = 0, high = bars.length
    while (low < high) {
      const middle = (low + high) >> 1
      if (bars[middle].begin <= time) low = middle + 1
      else high = middle
    }
    const bar = bars[low - 1]
    return bar && bar.end > time ? bar : null
  }

  /** Returns the owning bars from a wait to its runner at a time, or to where they come around. */
  wayOf(wait, time) {
    const way = [], seen = new Set()
    for (let it = wait; it && !seen.has(it.lane);) {
      const owner = this.ownerAt(it.what, time) ?? this.unkeptOwner(it)
      if (!owner) break
      seen.add(it.lane)
      way.push({ from: it, to: owner })
      it = owner.lane.waitAt(time)
    }
    return way
  }

  /** Returns who owned a mutex as a wait began, where its ownership isn't kept, or null. */
  unkeptOwner({ owner, what, taken, begin }) {
    if (!owner || this.isKept(begin)) return null
    return { lane: this.lanes[owner - 1], row: 0, kind: OWN, what, place: taken, begin: null }
  }

  /** Returns whether a way comes around to one that waits in it: a deadlock. */
  static isCycle(way) {
    const last = way[way.length - 1]?.to.lane
    return way.some(({ from }) => from.lane === last)
  }

  /** Returns whether single facts of a time are in the page. */
  isKept(time) {
    return !this.windows || this.windows.some(([begin, end]) => begin <= time && time <= end)
  }

  /** Returns the wait of a spot, or null. */
  barOf(spot) {
    const bars = this.lanes[spot.lane].rows.flatMap(({ begin, bars }) => {
      const past = above(begin, spot.begin)
      return bars.slice(Math.max(0, past - 8), past)
    })
    const isIts = bar => bar.begin === spot.begin && bar.end === spot.end && bar.kind !== OWN
    return spot.bar ??= bars.find(isIts) ?? null
  }
}
