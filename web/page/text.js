// ---- the lines of the editor, coloured, and the report ----------------------------------
const MOST_SPOKEN = 2000 // lines of a report that are on the page as a whole
const REPORT_LINE = 20    // pixels, as in the style
const AROUND = 20        // lines more than those in view, on each side
const LETTER_OF_REPLY = 8, AROUND_REPLY = 32 // pixels, as in the style or a little more

const AS_RECORDED = '✓'

const KEYWORDS = /^(pim|task|mutex)\b|\b(lock|try|unlock|release|cancel|base|ceil)\b/g

function coloured(line) {
  return escape(line)
    .replace(KEYWORDS, word => `<b>${word}</b>`)
    .replace(/ = .*$/, recorded => `<i>${recorded}</i>`)
}

/** Returns the judged line that the editor's line n is, counted from the first or from the last. */
function judgedAs(view, editor, n) {
  const line = editor.lines[n - 1], moved = view.lines.length - editor.lines.length
  return [n, n + moved].find(it => view.lines[it - 1] === line) ?? 0
}

/** Returns what is said behind the editor's line n: its reply, that it is the recorded one, or that the
 * line is invalid. */
function remark(view, editor, n) {
  const judged = judgedAs(view, editor, n)
  if (judged && judged === view.invalid) return 'invalid line'
  const k = judged - view.first, reply = k > 0 ? view.reply(k).replace(/ but recorded .*/, '') : ''
  return reply && view.lines[judged - 1].endsWith(` = ${reply}`) ? AS_RECORDED : reply
}

/** Returns the class of line n. */
function kindOf(view, now, n) {
  const bad = badLine(view), isNow = view.read && n > view.first && n - view.first === now
  return [n === bad && 'bad', bad && n > bad && 'after', isNow && 'now'].filter(Boolean).join(' ')
}

/** Returns how many characters wide the held lines are, with what is said behind them. */
function widest(view, editor) {
  let most = 0
  for (let n = editor.first + 1; n <= editor.past; n++) {
    most = Math.max(most, editor.lines[n - 1].length + remark(view, editor, n).length)
  }
  return most + 2
}

/** Fills an element with these lines. The same ones are told apart by their neighbours. */
function fillLines(to, lines, texts) {
  const keys = texts.map((text, i) => [lines[i - 1], lines[i], lines[i + 1], text].join('\n'))
  fill(to, texts, Infinity, keys)
}

/** Gives the elements of some lines their classes, which change more often than what is in them. */
function classifyLines(to, kinds) {
  [...to.children].forEach((it, i) => {
    if (it.className === kinds[i]) return
    it.className = kinds[i]
    worked(MAKING)
  })
}

/** Gives the elements of some lines their numbers. */
function numberLines(to, first) {
  [...to.children].forEach(({ dataset }, i) => {
    if (dataset.line === String(first + i + 1)) return
    dataset.line = first + i + 1
    worked(MAKING)
  })
}

/** Draws the copy of the lines in view below the text area, and what is said behind them. */
function drawText(view, now, editor, { lines: to, said }) {
  const { first, past } = editor.near(AROUND), lines = editor.lines.slice(first, past)
  const kinds = lines.map((_, i) => kindOf(view, now, first + i + 1))
  fillLines(to, lines, lines.map(line => `<div>${coloured(line)}</div>`))
  numberLines(to, first)
  fillLines(said, lines, lines.map((_, i) => {
    const reply = remark(view, editor, first + i + 1)
    return `<div>${reply && `<span>${escape(reply)}</span>`}</div>`
  }))
  for (const it of [to, said]) classifyLines(it, kinds)
  for (const it of [to, said]) it.style.marginTop = `${first * editor.line}px`
  // The browser scrolls the caret to where the reply doesn't cover it.
  const covered = LETTER_OF_REPLY * remark(view, editor, editor.caret).length + AROUND_REPLY
  editor.box.style.scrollPaddingRight = `${covered}px`
  editor.sheet.style.minWidth = `max(100%, ${widest(view, editor)}ch + 76px)`
}

/** Returns the class of a line of the report. */
function classOf(view, line, k, now) {
  const last = /^(accepted|rejected|line) /.exec(line)
  if (last) return last[1] === 'accepted' ? 'last' : 'last bad'
  const isBad = k > 0 && k === view.rejected
  const classes = [/^\d/.test(line) && 'step', k === now && 'now', isBad && 'bad']
  return classes.filter(Boolean).join(' ')
}

/** Returns which lines of a report are drawn: all, or of a long one those near the ones in view. */
function drawnOf(view, box, high) {
  if (view.reportLines <= MOST_SPOKEN) return { first: 0, past: view.reportLines }
  const first = Math.floor(box.scrollTop / high)
  const past = first + Math.ceil(box.clientHeight / high)
  return { first: Math.max(0, first - AROUND), past: Math.min(view.reportLines, past + AROUND) }
}

/** Returns the element of line i of the report. */
function reportLine(view, now, i) {
  const line = view.reportLine(i), k = view.steps[i]
  return `<span class="${classOf(view, line, k, now)}" data-step="${k}">${escape(line)}</span>`
}

/** Returns the line that names an invalid line, and the one that says why it is. */
const faultLines = ({ invalid, reason }) => [`line ${invalid}`, reason && `line ${invalid}: ${reason}`]
  .filter(Boolean).map(line => `<span class="last bad fault">${escape(line)}</span>`)

/** Draws the report into the box's first element. That of an invalid text is in the second: the first
 * isn't seen meanwhile, and keeps what it has. */
function drawReport(view, now, box, painter) {
  const [inside, invalid] = box.children
  box.classList.toggle('invalid', !!view.invalid)
  fill(invalid, view.invalid ? faultLines(view) : [])
  if (view.invalid) return
  const { first, past } = drawnOf(view, box, REPORT_LINE)
  inside.style.paddingTop = `${first * REPORT_LINE}px`
  inside.style.height = `${view.reportLines * REPORT_LINE}px`
  const line = (_, i) => reportLine(view, now, first + i)
  const texts = () => Array.from({ length: past - first }, line)
  painter.paint(inside, [{ to: inside, texts }])
}

/** Returns where the report is to be scrolled to, so that the lines of a step are in view. */
function placeInReport(view, now, { scrollTop, clientHeight }) {
  if (!now || view.invalid || view.steps[view.places[now]] !== now) return scrollTop
  const top = view.places[now] * REPORT_LINE
  let past = view.places[now] + 1
  while (past < view.reportLines - 1 && view.steps[past] === now) past++
  if (top < scrollTop) return top - 6
  const bottom = Math.min(past * REPORT_LINE, top + clientHeight)
  return bottom > scrollTop + clientHeight ? bottom - clientHeight + 6 : scrollTop
}

/** Returns what the page doesn't do with a text of this length, or an empty text. */
function limits(view, editor) {
  const number = n => n.toLocaleString('en'), said = []
  if (editor.isLong) {
    const all = number(editor.lines.length)
    said.push(`Of ${all} lines, the text area holds those near the ones in view:`
      + ` the browser's search, a screen reader and a selection reach no further.`
      + ' Undo, select all, copy and paste do.')
  }
  if (view.length > REPORT_ROOM) {
    const [most, all] = [REPORT_ROOM, view.length].map(number)
    said.push(`The report has ${all} bytes; the page shows the first ${most}.`)
  }
  if (view.last > MOST_SAVED) {
    said.push(`A saved picture has up to ${number(MOST_SAVED)} steps near the chosen one.`)
  }
  return said.join(' ')
}
