// ---- pictures as files ----------------------------------------------------------------
const MOST_SAVED = 1200       // steps of a saved picture
const MOST_STATES = 400_000   // tasks and mutexes, over all steps of a saved picture

/** Replaces each variable of the style by its value on this page. */
function resolved(svg) {
  const style = getComputedStyle(document.documentElement)
  return svg.replace(/var\((--[\w-]+)\)/g, (_, name) => style.getPropertyValue(name).trim())
}

/** Returns from which step to before which is saved: those near the chosen one, or all. */
function savedOf(view, now) {
  const { tasks, mutexes } = view.read
  const room = Math.floor(MOST_STATES / Math.max(1, tasks + mutexes))
  const most = Math.min(view.last, MOST_SAVED, room) + 1
  const from = Math.max(0, Math.min(now - Math.floor(most / 2), view.last + 1 - most))
  return [from, from + most]
}

/** Returns the names and the lanes in one picture, with nothing that only the page needs. */
function pictureOf(view, states, now, unfolded) {
  const plan = new Plan(view, { width: 1000, height: 0, narrow: false, unfolded })
  plan.seen = { ...plan.whole, first: states.from, past: states.past }
  const { names, lanes } = drawLanes(plan, states, now)
  const width = plan.side + lanes.right - lanes.left + 24, height = plan.height + 24
  const part = (picture, x) => svgOf(picture).replace('<svg ', `<svg x="${x}" y="12" `)
  const font = `font-family="${getComputedStyle(document.body).fontFamily.replace(/"/g, "'")}"`
  const size = `width="${width}" height="${height}"`
  const whole = `<svg xmlns="http://www.w3.org/2000/svg" ${size} ${font}>`
    + `<rect ${size} style="fill:var(--bg)"/>`
    + part(names, 12) + part(lanes, 12 + plan.side) + '</svg>\n'
  const plain = whole.replace(/ ?(data-[\w-]+|class|aria-hidden|pointer-events)="[^"]*"/g, '')
  return { svg: resolved(plain.replace(/<rect [^>]*fill:transparent[^>]*>/g, '')), width, height }
}

function download(name, blob) {
  const link = document.createElement('a')
  link.href = URL.createObjectURL(blob)
  link.download = name
  link.click()
  setTimeout(() => URL.revokeObjectURL(link.href), 10_000)
}

function saveSvg({ svg }) {
  download('trace.svg', new Blob([svg], { type: 'image/svg+xml' }))
}

/** Draws the picture at twice its size. A canvas has no more than 16,384 pixels a side. */
function savePng({ svg, width, height }) {
  const image = new Image()
  const scale = Math.min(2, 16_000 / Math.max(width, height))
  image.onload = () => {
    const canvas = document.createElement('canvas')
    canvas.width = Math.ceil(scale * width)
    canvas.height = Math.ceil(scale * height)
    canvas.getContext('2d').drawImage(image, 0, 0, canvas.width, canvas.height)
    canvas.toBlob(blob => download('trace.png', blob), 'image/png')
  }
  image.src = `data:image/svg+xml;charset=utf-8,${encodeURIComponent(svg)}`
}
