import { OWN, Recording, WAIT, above } from './data.js'
import { duration, moment, shares } from './words.js'
import { ranIn } from './finding.js'

// ---- what is said of a bar that is pointed at or focused

/** Returns the first line and the others of a bar, at a time within it. */
export function linesOf(recording, bar, time) {
  const place = n => recording.places[n][0] ?? '', at = n => place(n) ? ` at ${place(n)}` : ''
  const { lane, kind, begin, end } = bar, lasts = duration(end - begin)
  const since = `${bar.open ? `${lasts} to the end` : lasts} from ${moment(begin)}${at(bar.place)}`
  if (kind === OWN) return ownLines(recording, bar, since)
  if (kind === WAIT) return waitLines(recording, bar, since, time, at)
  const ender = recording.threads[bar.by - 1]
  const by = bar.by ? `${ender.name} (${bar.byLevel}) ended it${at(bar.ended)}`
    : ['', '', 'its time was over', 'it failed'][bar.how]
  const what = recording.objects[bar.what].name
  return [`${lane.name} (${bar.level}) waits: ${what}`, since, by].filter(Boolean)
}

const mutexOf = ({ name, protocol }) => `${name} (${protocol.toUpperCase()})`

/** Returns when a thread held up others in a stretch. Those that began before it are few. */
function causesOf({ cause }, begin, end) {
  const past = above(cause.begin, end)
  const near = cause.of.slice(Math.max(0, past - 500), past)
  return near.filter(it => it.begin < end && it.end > begin)
}

function ownLines(recording, bar, since) {
  const { lane, begin, end } = bar, mutex = mutexOf(recording.mutexes[bar.what])
  const lines = [`${lane.name} (${lane.levelAt(begin)}) owns ${mutex}`, since]
  const held = causesOf(lane, begin, end)
  let time = 0, counted = begin // stretches may overlap
  for (const it of held) {
    time += Math.max(0, Math.min(it.end, end) - Math.max(it.begin, counted))
    counted = Math.max(counted, it.end)
  }
  const whom = [...new Set(held.map(it => it.wait.lane.name))].slice(0, 3).join(', ')
  if (held.length) lines.push(`holds up ${whom} for ${duration(time)}`)
  const boost = lane.boosts.of[above(lane.boosts.end, begin)]
  if (boost?.begin < end) lines.push(`boosted from ${boost.level} to ${boost.gets}`)
  return lines
}

function waitLines(recording, bar, since, time, at) {
  const { lane, level } = bar, mutex = mutexOf(recording.mutexes[bar.what])
  const raised = bar.gets > level ? `, raised to ${bar.gets}` : ''
  const lines = [`${lane.name} (${level}${raised}) waits for ${mutex}`, since]
  const within = Math.min(Math.max(time, bar.begin), bar.end - 1)
  const way = recording.wayOf(bar, within), owner = way[0]?.to
  const asItBegan = name => `owned by ${name} (${bar.ownerLevel}) as it began${at(bar.taken)}`
  if (owner?.begin === null) {
    lines.push(asItBegan(owner.lane.name))
  } else if (owner) {
    const name = `${owner.lane.name} (${owner.lane.levelAt(within)})`
    lines.push(`owned by ${name} since ${moment(owner.begin)}${at(owner.place)}`)
  } else if (bar.owner) {
    lines.push(asItBegan(recording.threads[bar.owner - 1].name))
  } else {
    lines.push('owned by nobody then: the next owner was quicker')
  }
  if (Recording.isCycle(way)) return [...lines, 'a deadlock']
  for (const { from, to } of way.slice(1)) {
    lines.push(`${from.lane.name} waits for ${recording.mutexes[to.what].name} of ${to.lane.name}`)
  }
  if (bar.inverted) {
    const blamed = [...new Set(bar.late.map(it => recording.mutexes[it.mutex].name))].join(', ')
    lines.push(`held up for ${duration(bar.inverted)}: ${blamed} passes too little on`)
  } else if (bar.stalled) {
    lines.push(`for ${duration(bar.stalled)} of it what had to run waited for something else`)
  } else if (bar.lower) {
    lines.push('bounded: the owner is boosted meanwhile')
  }
  const ran = ranIn(recording, bar)
  if (ran.length) lines.push(`meanwhile ${shares(ran, 2)}`)
  return lines
}
