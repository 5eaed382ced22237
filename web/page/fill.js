// ---- elements: those stay that say the same, and no frame makes too many -----------------
// Work is counted in characters of elements. An element is as much as so many more, since the browser
// styles it, places it and paints it: to make one, to look at one that stays, and to remove one.
const MOST_WORK = 6_500, MAKING = 30, LOOKING = 8, REMOVING = 40
let work = { frame: 0, done: 0 }

/** Returns how much work this frame may still do. */
function workLeft() {
  const frame = document.timeline.currentTime
  if (frame !== work.frame) work = { frame, done: 0 }
  return MOST_WORK - work.done
}

function worked(amount) { work.done = MOST_WORK - workLeft() + amount }

/** Returns how many keys two lists have in common where they begin, and then where they end. */
function sharedEnds(one, other) {
  const most = Math.min(one.length, other.length), lastOf = (list, n) => list[list.length - 1 - n]
  let begin = 0, end = 0
  while (begin < most && one[begin] === other[begin]) begin++
  while (end < most - begin && lastOf(one, end) === lastOf(other, end)) end++
  return { begin, end }
}

/** Lists some of the elements that an element has, by their keys, the first one of a key last. */
function elementsOf(to, keys, from, past) {
  const found = new Map()
  for (let i = past - 1, it = to.children[i]; i >= from; i--, it = it.previousElementSibling) {
    if (!found.has(keys[i])) found.set(keys[i], [])
    found.get(keys[i]).push(it)
  }
  return found
}

/** Returns the elements of these texts, as they are inside an element. */
function made(to, found) {
  const range = document.createRange()
  range.selectNodeContents(to)
  return range.createContextualFragment(found.map(({ text }) => text).join(''))
}

const costOf = ({ text }) => MAKING + text.length

/** Returns the first of these, as many as cost so much and one more. */
function firstOf(found, most) {
  let count = 0
  for (let room = most; count < found.length && room > 0; count++) room -= costOf(found[count])
  return found.slice(0, count)
}

/** Gives an element one element for each of these texts. One that it has already, by its key,
 * stays. No more elements are made than so much work. Returns whether all are there. */
function fill(to, texts, most = Infinity, keys = texts) {
  const had = to.keys ?? [], { begin, end } = sharedEnds(had, keys), past = keys.length - end
  const old = elementsOf(to, had, begin, had.length - end)
  const found = keys.slice(begin, past)
    .map((key, i) => ({ text: texts[begin + i], key, it: old.get(key)?.pop() }))
  const missing = firstOf(found.filter(({ it }) => !it), most), begun = new Set(missing)
  const shown = found.filter(one => one.it || begun.has(one)), gone = [...old.values()].flat()
  const making = missing.reduce((sum, it) => sum + costOf(it), 0)
  worked(LOOKING * texts.length + REMOVING * gone.length + making)
  to.keys = [...keys.slice(0, begin), ...shown.map(({ key }) => key), ...keys.slice(past)]
  if (gone.length === to.childElementCount) {
    to.replaceChildren(made(to, missing))
  } else {
    for (const it of gone) it.remove()
    if (missing.length || gone.length || found.length) place(to, begin, shown, made(to, missing))
  }
  return shown.length === found.length
}

/** Places the elements that stay and the next ones in their order, neighbours at once. */
function place(to, begin, shown, made) {
  const run = document.createDocumentFragment()
  let at = to.children[begin] ?? null
  for (const { it } of shown) {
    if (!it) {
      run.append(made.firstElementChild)
      continue
    }
    if (run.firstElementChild) to.insertBefore(run, at)
    if (it === at) at = at.nextElementSibling
    else to.insertBefore(it, at)
  }
  to.insertBefore(run, at)
}

/** Writes a text into an element, if it is another one. */
function write(to, text) {
  if (to.textContent !== text) to.textContent = text
}

/** Sets sizes and places of an element in pixels, if they are other ones. */
function setStyle({ style }, pixels) {
  for (const [name, n] of Object.entries(pixels)) {
    if (style[name] !== `${n}px`) style[name] = `${n}px`
  }
}

/** Waits for the next animation frame. */
const nextFrame = () => new Promise(done => { requestAnimationFrame(done) })

/** Fills elements one after the other from the next frame on, over some frames if there is much to make. */
class Painter {
  /** Takes what is called when it begins and when all is filled. */
  constructor(changed) {
    this.changed = changed
    this.waiting = new Map() // for each element what is to be filled in it
    this.isPainting = false
  }

  /** Fills parts of an element, in place of those of it that are still waiting. Each part has an
   * element and a function that returns its texts. */
  paint(whole, parts) {
    this.waiting.set(whole, [...parts])
    if (!this.isPainting) this.done = this.fillAll()
  }

  async fillAll() {
    this.isPainting = true
    this.changed()
    try {
      await nextFrame()
      while (this.waiting.size) await this.fillFirst()
    } finally {
      this.isPainting = false
      this.changed()
    }
  }

  /** Fills the first part that waits, or a piece of it, as soon as a frame has room for it. */
  fillFirst() {
    if (workLeft() <= 0) return nextFrame()
    const [[whole, parts]] = this.waiting
    if (!parts.length) this.waiting.delete(whole)
    else if (this.fillNext(parts[0])) parts.shift()
  }

  /** Fills a part as far as this frame may. Returns whether it is whole. */
  fillNext(part) {
    part.made ??= part.texts()
    return fill(part.to, part.made, workLeft())
  }

  /** Draws a picture of these parts, each in a box of its own, so that the browser draws only those
   * again in which something changes. Another size of an svg would have it place all texts in it
   * again, so that size stays, and the content is seen around it. */
  picture(to, { width, height, parts }) {
    const whole = to.firstElementChild ?? to.appendChild(document.createElement('div'))
    const box = `<div class="part"><svg ${SVG} width="1" height="1"><g></g></svg></div>`
    setStyle(whole, { width, height })
    fill(whole, parts.map(() => box), Infinity, parts.map(({ of }) => of))
    parts.forEach(({ top = 0, deep = height }, i) => setStyle(whole.children[i], { top, height: deep }))
    const groups = [...whole.querySelectorAll('g')]
    this.paint(to, parts.map(({ texts }, i) => ({ to: groups[i], texts })))
  }
}
