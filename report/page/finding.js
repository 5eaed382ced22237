import { count, duration, made, moment, shares } from './words.js'

// ---- the chosen finding: who, how long, where, why, who ran meanwhile, what to do

const TITLES = {
  deadlock: ({ lanes, who }) => `Deadlock of ${lanes.length > 1 ? `${lanes.length} threads` : who}`,
  late: it => `${it.who} held up by ${it.by}`,
  ran: it => `${it.who} ran at another level`,
  'gave-up': it => `${it.who} waited for ${it.what}, and gave up`,
  stalled: it => `${it.who} waited for ${it.by}, which slept or waited for something else`,
  look: it => `${it.who} waited for ${it.what}`,
  orders: it => `${it.what} can deadlock`,
  bounded: it => `${it.who} waited for ${it.by}`,
  wait: it => it.by ? `${it.who} waited for ${it.by}` : `${it.who} waited`,
  other: it => `${it.who} waited for ${it.what}`,
}

/** Returns the threads that ran in place of a bar's runner, with their levels and how long. */
export const ranIn = (recording, bar) =>
  bar.meanwhile.map(({ lane, level, time }) => [`${recording.threads[lane].name} (${level})`, time])

const code = text => made('code', '', text)
const soft = text => made('span', 'soft', text)
const write = (id, text) => { document.getElementById(id).textContent = text }

/** Returns the longest of the stretches in which a wait was held up, or undefined. */
export const longestOf = bar =>
  bar?.late?.reduce((one, it) => it.end - it.begin > one.end - one.begin ? it : one, bar.late[0])

/** Returns what a finding is called. If it was held up, its title is that of the shown wait. */
function titleOf(finding, bar, recording) {
  const late = longestOf(bar)
  if (finding.kind !== 'late' || !late) return TITLES[finding.kind](finding)
  const runner = recording.lanes[late.runner], level = bar.lane.highestIn(bar)
  return `${bar.lane.name} (${level}) held up by ${runner.name} (${runner.getsAt(late.begin)})`
}

/** Returns where the shown wait was, its callers, and where the mutex was taken or it was ended. */
function placesOf(finding, bar, recording) {
  if (!bar) return finding
  const [where, ...callers] = recording.places[bar.place]
  const [taken] = recording.places[bar.taken || bar.ended || 0]
  return { where: where ?? finding.where, callers, taken }
}

function howLong({ kind, times, worst, total }) {
  if (kind === 'deadlock') return `${duration(worst)}, to the end`
  if (times === 1) return duration(worst)
  return `${duration(worst)} at worst, ${duration(total)} in ${count(times, 'wait')}`
}

function whereParts(finding, bar, recording) {
  const { where, callers, taken } = placesOf(finding, bar, recording)
  const isEnded = finding.kind === 'look' || finding.kind === 'other'
  const called = callers.flatMap((it, i) => [i ? ' ← ' : ', called by ', code(it)])
  return ['it waits at ', code(where), ...called,
    ...taken ? [isEnded ? '; ended at ' : '; the owner took it at ', code(taken)] : []]
}

function meanwhileParts(finding, bar, recording) {
  const ran = bar?.meanwhile ? ranIn(recording, bar) : finding.meanwhile
  if (ran.length) return [shares(ran)]
  if (finding.kind !== 'late') return []
  const text = recording.hasStays ? 'no less urgent thread ran in its place' : 'not recorded'
  return [soft(text)]
}

/** Returns what is said of a finding and one of its waits, as [what, parts]. */
function saidOf(finding, bar, recording) {
  const said = [], add = (what, ...parts) => { if (parts.length) said.push([what, parts]) }
  if (finding.worst) add('How long', howLong(finding))
  const hasLines = finding.kind === 'deadlock' || finding.kind === 'orders'
  if (hasLines) finding.lines.forEach((line, i) => add(i ? '' : 'Who', line))
  else if (finding.where) add('Where', ...whereParts(finding, bar, recording))
  if (finding.kind !== 'orders' && finding.why) add('Why', finding.why)
  if (!hasLines) finding.lines.forEach(line => add('', line))
  add('Meanwhile', ...meanwhileParts(finding, bar, recording))
  return said
}

/** Shows a finding, and which of its waits is shown in the lanes. */
export function drawFinding(recording, finding, nth) {
  const box = document.getElementById('finding')
  const spot = finding.spots[nth], bar = spot && recording.barOf(spot)
  box.hidden = false
  box.className = finding.isBad ? 'bad' : ''
  write('finding-title', titleOf(finding, bar, recording))
  const pair = (what, name, ...parts) => [made('dt', '', what), made('dd', name, ...parts)]
  const { advice } = finding, list = box.querySelector('dl')
  const said = saidOf(finding, bar, recording)
  list.replaceChildren(...said.flatMap(([what, parts]) => pair(what, '', ...parts)))
  if (advice) list.append(...pair('To do', 'do', `${advice[0].toUpperCase()}${advice.slice(1)}.`))
  document.getElementById('steps').hidden = !spot
  if (spot) drawSteps(finding, spot, nth)
}

/** Shows which of the waits it is, with buttons to the ones next to it. */
function drawSteps(finding, spot, nth) {
  const n = finding.spots.length, all = finding.kind === 'orders' ? n : Math.max(n, finding.times)
  const which = n > 1 ? `${nth + 1} of ${all.toLocaleString('en')}: ` : ''
  const time = duration(spot.inverted || spot.end - spot.begin)
  write('spot', `${which}${time} from ${moment(spot.begin)}`)
  const [previous, next] = ['previous', 'next'].map(id => document.getElementById(id))
  previous.hidden = next.hidden = n < 2
  previous.disabled = nth === 0
  next.disabled = nth === n - 1
  next.title = n < all ? `n; the page has the ${n.toLocaleString('en')} longest` : 'n'
}
