// ---- the editor: a text area over a coloured copy of its lines --------------------------
// Up to MOST_WHOLE lines the text area has the whole text. Of a longer one it has the lines near
// those in view, and those of the selection if it can. All lines are in `lines`, and each change
// of them goes through `replace`, so that undo needs nothing that the text area remembers.
const MOST_WHOLE = 2000, MARGIN = 150, MOST_SELECTED = 2000, MOST_UNDONE = 500

const linesOfText = text => text.replace(/\r\n?/g, '\n').split('\n')

class Editor {
  /** Takes the text area, and the sheet and the box in which it is scrolled. */
  constructor(area, sheet, box) {
    Object.assign(this, { area, sheet, box })
    this.line = 21
    this.composing = false
    this.set('')
  }

  get text() { return this.joined ??= this.lines.join('\n') }
  get isLong() { return this.lines.length > MOST_WHOLE }

  /** Shows this text, with the caret at its end and the first lines in view. */
  set(text) {
    this.lines = linesOfText(text)
    this.joined = null
    this.whole = false
    this.away = null
    this.undone = { back: [], on: [] }
    this.box.scrollTop = 0
    this.hold(this.range())
    if (!this.isLong) this.area.setSelectionRange(this.area.value.length, this.area.value.length)
  }

  /** Measures the height of a line, which the style sets. */
  measure() { this.line = parseFloat(getComputedStyle(this.area).lineHeight) }

  /** Returns the lines in view, and as many more on each side. */
  near(more) {
    const seen = Math.floor(this.box.scrollTop / this.line)
    const first = Math.min(seen, this.lines.length - 1)
    const past = first + Math.ceil(this.box.clientHeight / this.line)
    return { first: Math.max(0, first - more), past: Math.min(this.lines.length, past + more) }
  }

  /** Returns the lines that are to be held: all, or of a long text those near the ones in view. */
  range() { return this.isLong ? this.near(MARGIN) : { first: 0, past: this.lines.length } }

  /** Puts these lines into the text area. */
  hold({ first, past }) {
    this.first = first
    this.past = past
    this.area.value = this.lines.slice(first, past).join('\n')
    this.area.readOnly = !!this.away
    this.fit()
  }

  /** Places the text area, and makes the sheet as high as all lines. */
  fit() {
    const high = n => `${n * this.line + 16}px`
    this.sheet.style.height = high(this.lines.length)
    this.area.style.top = `${this.first * this.line}px`
    this.area.style.height = this.isLong ? high(this.past - this.first) : '100%'
  }

  // ---- what is selected: lines and columns, which stay when other lines are held

  get selection() {
    const { selectionStart, selectionEnd, selectionDirection: direction } = this.area
    const [from, to] = [selectionStart, selectionEnd].map(place => this.lineAt(place))
    return this.away ?? { from, to, direction }
  }

  set selection({ from, to, direction }) {
    this.area.setSelectionRange(this.placeOf(from), this.placeOf(to), direction)
  }

  get caret() { return this.selection.from.line + 1 }

  /** Returns the line and the column of a place in the text area. */
  lineAt(place) {
    const above = this.area.value.slice(0, place).split('\n')
    return { line: this.first + above.length - 1, column: above[above.length - 1].length }
  }

  /** Returns the place in the text area of a line and a column that it has. */
  placeOf({ line, column }) {
    let place = 0
    for (let i = this.first; i < line; i++) place += this.lines[i].length + 1
    return place + column
  }

  /** Holds the lines in view, where the text was scrolled away from what is held. */
  scrolled() {
    const isHeld = ({ first, past }) => first >= this.first && past <= this.past
    if (this.composing || isHeld(this.isLong ? this.near(MARGIN / 3) : this.range())) return
    this.holdNear(this.selection)
  }

  /** Holds the lines in view and the selection. A selection that is too far away is remembered. */
  holdNear(selection) {
    const range = this.range(), { from, to } = selection
    const first = Math.min(range.first, from.line), past = Math.max(range.past, to.line + 1)
    const fits = past - first <= MOST_SELECTED
    this.away = fits || this.whole ? null : selection
    this.hold(fits && !this.whole ? { first, past } : range)
    if (this.whole) this.area.select()
    else if (fits) this.selection = selection
  }

  /** Goes back to a selection that was scrolled away from, so that a key changes what is seen. */
  comeBack() {
    const selection = this.away
    if (!selection) return
    this.show(selection.from.line + 1)
    this.away = null
    this.holdNear(selection)
  }

  /** Shows a line, and puts the caret there. */
  reach(line, column) {
    const at = { line, column }
    this.away = { from: at, to: at, direction: 'none' }
    this.comeBack()
  }

  /** Scrolls so that a line is in view, numbered from 1 on. */
  show(n) {
    const top = (n - 1) * this.line + 2, { scrollTop, clientHeight } = this.box
    if (top < scrollTop) this.box.scrollTop = top - 6
    else if (top + this.line > scrollTop + clientHeight) {
      this.box.scrollTop = top + this.line - clientHeight + 6
    }
    this.scrolled()
  }

  // ---- changes

  /** Puts other lines in the place of some. Changes of one line in a row are undone as one. */
  replace(at, count, added) {
    const removed = this.lines.slice(at, at + count), { back } = this.undone
    const last = back[back.length - 1]
    const isOne = [last?.removed, last?.added, removed, added].every(it => it?.length === 1)
    if (isOne && last.at === at) last.added = added
    else back.push({ at, removed, added })
    if (back.length > MOST_UNDONE) back.shift()
    this.undone.on = []
    this.splice(at, count, added)
  }

  splice(at, count, added) {
    this.lines = [...this.lines.slice(0, at), ...added, ...this.lines.slice(at + count)]
    this.joined = null
  }

  /** Takes what was changed in the text area. */
  changed() {
    const held = this.area.value.split('\n'), old = this.lines.slice(this.first, this.past)
    const most = Math.min(held.length, old.length)
    let above = 0, below = 0
    while (above < most && held[above] === old[above]) above++
    const isSame = n => held[held.length - 1 - n] === old[old.length - 1 - n]
    while (below < most - above && isSame(below)) below++
    if (above + below === held.length && held.length === old.length) return
    const [count, added] = [old.length - above - below, held.slice(above, held.length - below)]
    this.replace(this.first + above, count, added)
    this.past = this.first + held.length
    this.fit()
    this.scrolled()
  }

  /** Puts other lines in the place of some, with the caret behind them, and fires `input`. */
  put(at, count, added, column = added[added.length - 1]?.length ?? 0) {
    this.replace(at, count, added)
    this.announce(at + added.length - 1, column)
  }

  announce(line, column) {
    this.whole = false
    this.reach(line, column)
    this.area.dispatchEvent(new Event('input'))
  }

  /** Takes the last change back, or makes the one again that was taken back last. */
  undo(isBack) {
    const { back, on } = this.undone, it = (isBack ? back : on).pop()
    if (!it) return
    const [count, lines] = isBack ? [it.added.length, it.removed] : [it.removed.length, it.added]
    this.splice(it.at, count, lines)
    ;(isBack ? on : back).push(it)
    const last = Math.min(it.at + Math.max(0, lines.length - 1), this.lines.length - 1)
    this.announce(last, this.lines[last].length)
  }

  // ---- keys, and what reaches further than the lines that are held

  keyDown(event) {
    if (/^(Control|Shift|Alt|Meta)/.test(event.key)) return
    this.comeBack()
    if (/^(Arrow|Page|Home|End)/.test(event.key)) this.whole = false
    if (event.ctrlKey || event.metaKey) this.controlKeyDown(event, event.key.toLowerCase())
  }

  /** Undoes, selects a long text as a whole, or goes to its beginning or its end. */
  controlKeyDown(event, key) {
    const last = this.lines.length - 1
    if (key === 'a') this.whole = this.isLong
    else if (key === 'z' || key === 'y') this.undo(key === 'z' && !event.shiftKey)
    else if (!this.isLong || event.shiftKey || (key !== 'home' && key !== 'end')) return
    else this.reach(...(key === 'home' ? [0, 0] : [last, this.lines[last].length]))
    if (key !== 'a') event.preventDefault()
  }

  /** Leaves a selection that was scrolled away from: the pointer chooses another one. */
  pointed() {
    this.whole = false
    this.away = null
    this.area.readOnly = false
  }

  /** Returns whether all lines of a long text are selected, in the text area too. */
  get isWhole() {
    const { selectionStart, selectionEnd, value } = this.area
    return this.whole && selectionStart === 0 && selectionEnd === value.length
  }

  putAll(text) { this.put(0, this.lines.length, linesOfText(text)) }

  /** Puts the whole text into the clipboard where all of it is selected. */
  copied(event) {
    if (!this.isWhole) return
    event.preventDefault()
    event.clipboardData.setData('text/plain', this.text)
    if (event.type === 'cut') this.putAll('')
  }

  /** Undoes in the lines, and lets what is typed take the place of all where all is selected. */
  typing(event) {
    const isUndo = event.inputType === 'historyUndo'
    if (isUndo || event.inputType === 'historyRedo') {
      event.preventDefault()
      this.undo(isUndo)
    } else if (this.isWhole && event.cancelable) {
      event.preventDefault()
      this.putAll(event.data ?? (/^insert(LineBreak|Paragraph)/.test(event.inputType) ? '\n' : ''))
    }
    this.whole = false
  }

  /** Holds the same lines while a text is composed. */
  composes(is) {
    if (is && this.isWhole) this.putAll('')
    this.composing = is
    if (!is) this.scrolled()
  }

  /** Takes many lines from the clipboard, or such as take the place of all. */
  pasted(event) {
    const more = linesOfText(event.clipboardData.getData('text'))
    const most = this.isLong ? MARGIN : MOST_WHOLE - this.lines.length
    if (!this.isWhole && more.length <= most) return
    event.preventDefault()
    if (this.isWhole) this.put(0, this.lines.length, more)
    else this.putBetween(this.selection, more)
  }

  putBetween({ from, to }, more) {
    const last = more.length - 1, after = this.lines[to.line].slice(to.column)
    const column = more[last].length + (last ? 0 : from.column)
    const added = [...more]
    added[0] = this.lines[from.line].slice(0, from.column) + added[0]
    added[last] += after
    this.put(from.line, to.line + 1 - from.line, added, column)
  }
}
