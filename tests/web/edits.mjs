// Edits a long text of the page at random: typed, deleted, pasted, composed, scrolled away from.
// The text that the page then has is compared with a plain string, and with what undo brings back.
import { TWO_FRAMES } from './browser.mjs'

const NEAR = 60 // lines that are selected at most
const HEIGHT = `parseFloat(getComputedStyle(document.getElementById('text')).lineHeight)`

const lineOf = (whole, at) => {
  const lines = whole.slice(0, at).split('\n')
  return { line: lines.length - 1, column: lines[lines.length - 1].length }
}

class Edits {
  constructor(page, whole, seed) { Object.assign(this, { page, whole, seed }) }

  draw(n) { return (this.seed = this.seed * 48271 % 2147483647) % n }

  scroll(line) {
    return this.page.evaluate(`(async () => {
      document.getElementById('editor').scrollTop = ${line} * ${HEIGHT} - 100
      await ${TWO_FRAMES} })()`)
  }

  /** Selects some characters of the text, as the pointer does. */
  async select(from, to) {
    const [begin, end] = [from, to].map(at => lineOf(this.whole, at))
    await this.scroll(begin.line)
    await this.page.evaluate(`{ const it = document.getElementById('text'), held = it.value.split('\\n')
      const first = Math.round(parseFloat(it.style.top) / ${HEIGHT})
      const place = ({ line, column }) =>
        held.slice(0, line - first).reduce((sum, one) => sum + one.length + 1, 0) + column
      it.dispatchEvent(new PointerEvent('pointerdown'))
      it.focus({ preventScroll: true })
      it.setSelectionRange(place(${JSON.stringify(begin)}), place(${JSON.stringify(end)})) }`)
  }

  put(from, to, more) { this.whole = this.whole.slice(0, from) + more + this.whole.slice(to) }

  paste(text) {
    return this.page.evaluate(`{ const data = new DataTransfer(), it = document.getElementById('text')
      data.setData('text/plain', ${JSON.stringify(text)})
      const event = new ClipboardEvent('paste', { clipboardData: data, bubbles: true, cancelable: true })
      if (it.dispatchEvent(event)) document.execCommand('insertText', false, ${JSON.stringify(text)}) }`)
  }

  // Each takes where the caret is, or what is selected.

  async type(from, to) { await this.page.type('typed'); this.put(from, to, 'typed') }
  async enter(from, to) { await this.page.key('Enter'); this.put(from, to, '\n') }

  async backspace(from, to) {
    await this.page.key('Backspace')
    this.put(from === to ? Math.max(0, from - 1) : from, to, '')
  }

  async remove(from, to) {
    await this.page.key('Delete')
    this.put(from, from === to ? to + 1 : to, '')
  }

  async pasteFew(from, to) { await this.paste('a\nb\n'); this.put(from, to, 'a\nb\n') }

  async pasteMany(from, to) {
    const many = 'x' + '1 lock 1\n'.repeat(100 + this.draw(300)) + 'y'
    await this.paste(many.replace(/\n/g, '\r\n'))
    this.put(from, to, many)
  }

  /** Types after the text was scrolled away from the caret. */
  async typeAway(from, to) {
    await this.scroll(this.draw(this.whole.split('\n').length))
    await this.page.key('q')
    this.put(from, to, 'q')
  }

  /** Scrolls while a text is composed. */
  async compose(from, to) {
    await this.page.call('Input.imeSetComposition', { text: 'か', selectionStart: 1, selectionEnd: 1 })
    await this.scroll(this.draw(this.whole.split('\n').length))
    await this.page.type('漢字')
    this.put(from, to, '漢字')
  }

  /** Makes an edit at a random place. */
  async edit() {
    const kinds = ['type', 'enter', 'backspace', 'remove', 'pasteFew', 'pasteMany', 'typeAway', 'compose']
    const from = this.draw(this.whole.length), rest = this.whole.slice(from).split('\n').slice(0, NEAR).join('\n')
    const to = this.draw(2) ? from : from + this.draw(rest.length + 1)
    const kind = kinds[this.draw(kinds.length)]
    await this.select(from, to)
    await this[kind](from, to)
    return kind
  }

  /** Returns the text that the page has: what it copies where all is selected. */
  async copied() {
    await this.page.evaluate(`document.getElementById('text').focus({ preventScroll: true })`)
    await this.page.key('a', 2)
    return this.page.evaluate(`(() => { let text = null
      const take = event => { text = event.clipboardData.getData('text/plain')
        || document.getElementById('text').value }
      addEventListener('copy', take, { once: true })
      document.execCommand('copy')
      return text })()`)
  }

  /** Selects and deletes many lines, so that a long text may get short. */
  async shrink() {
    for (let left = 10; left; left--) {
      const from = this.draw(this.whole.length >> 1), { line } = lineOf(this.whole, from)
      const to = this.whole.split('\n').slice(0, line + NEAR).join('\n').length
      await this.select(from, to)
      await this.backspace(from, to)
    }
  }

  async keys(count, ...words) { for (let i = 0; i < count; i++) await this.page.key(...words) }
}

/** Returns where two texts differ first, or null. */
function difference(got, wanted) {
  if (got === wanted) return null
  let at = 0
  while (got?.[at] === wanted[at]) at++
  const { line } = lineOf(wanted, at)
  return `line ${line + 1}: ${JSON.stringify(got?.slice(at, at + 40) ?? null)}`
    + ` in place of ${JSON.stringify(wanted.slice(at, at + 40))}`
}

/** Makes edits, takes all back, and makes them again. Returns what differs first, or null. */
export async function edited(page, whole, seed) {
  const edits = new Edits(page, whole, seed), made = []
  for (let i = 0; i < 24; i++) {
    if (i === 12) await edits.shrink()
    made.push(await edits.edit())
    if (i % 4 && i !== 12) continue
    const wrong = difference(await edits.copied(), edits.whole)
    if (wrong) return `after ${made.slice(-4).join(', ')}: ${wrong}`
  }
  const wrong = difference(await edits.copied(), edits.whole)
  if (wrong) return wrong
  await edits.keys(50, 'z', 2)
  const back = difference(await edits.copied(), whole)
  if (back) return `undone: ${back}`
  await edits.keys(50, 'y', 2)
  const again = difference(await edits.copied(), edits.whole)
  return again && `made again: ${again}`
}
