// A headless Chromium, driven through a pipe by the DevTools protocol.
import { spawn } from 'node:child_process'
import { mkdtempSync, rmSync, writeFileSync } from 'node:fs'
import { tmpdir } from 'node:os'
import { join } from 'node:path'

const FLAGS = ['--headless=new', '--no-sandbox', '--disable-gpu', '--hide-scrollbars', '--no-first-run',
  '--disable-background-networking', '--disable-component-update', '--remote-debugging-pipe']
const CODES = {
  ArrowLeft: 37, ArrowRight: 39, End: 35, Home: 36, Tab: 9, Escape: 27, Enter: 13, Backspace: 8, Delete: 46, a: 65, q: 81,
  y: 89, z: 90,
}

export const pause = ms => new Promise(done => setTimeout(done, ms))

/** What takes longer hangs, on the busiest machine. */
export const HANGS = 300_000

/** Waits until what the function returns is true, and fails if it hangs. */
export async function until(what, isSo) {
  for (const begin = Date.now(); !await isSo(); await pause(25))
    if (Date.now() - begin > HANGS) throw Error(`it hangs: ${what}`)
}

/** What the page evaluates to wait until it was drawn again. */
export const TWO_FRAMES = 'new Promise(done => requestAnimationFrame(() => requestAnimationFrame(done)))'

/** The pipe to the browser: calls with answers, and the events that came. */
class Pipe {
  constructor(program, profile) {
    const words = [...FLAGS, `--user-data-dir=${profile}`, 'about:blank']
    const stdio = ['ignore', 'ignore', 'ignore', 'pipe', 'pipe']
    this.child = spawn(program, words, { stdio })
    this.waiting = new Map()
    this.heard = []
    this.rest = ''
    this.child.stdio[4].on('data', data => this.read(data))
  }

  read(data) {
    const parts = (this.rest + data).split('\0')
    this.rest = parts.pop()
    for (const message of parts.map(part => JSON.parse(part))) {
      const call = this.waiting.get(message.id)
      this.waiting.delete(message.id)
      if (!message.id) this.heard.push(message)
      else if (message.error) call.failed(Error(message.error.message))
      else call.done(message.result)
    }
  }

  call(method, params = {}, sessionId) {
    const id = this.count = (this.count ?? 0) + 1
    this.child.stdio[3].write(JSON.stringify({ id, method, params, sessionId }) + '\0')
    return new Promise((done, failed) => this.waiting.set(id, { done, failed }))
  }
}

/** A page of the browser. */
export class Page {
  static async open(program) {
    const page = new Page()
    page.profile = mkdtempSync(join(tmpdir(), 'pim-page-'))
    page.pipe = new Pipe(program, page.profile)
    const { targetId } = await page.pipe.call('Target.createTarget', { url: 'about:blank' })
    page.session = (await page.pipe.call('Target.attachToTarget', { targetId, flatten: true })).sessionId
    for (const part of ['Page', 'Runtime', 'Log', 'Network', 'DOM']) await page.call(`${part}.enable`)
    return page
  }

  get heard() { return this.pipe.heard }
  call(method, params) { return this.pipe.call(method, params, this.session) }

  async evaluate(expression) {
    const words = { expression, returnByValue: true, awaitPromise: true, userGesture: true }
    const { result, exceptionDetails: failure } = await this.call('Runtime.evaluate', words)
    if (failure) throw Error(failure.exception?.description ?? failure.text)
    return result.value
  }

  /** Loads a page anew, also if only its address behind # changes. */
  async load(url) {
    await this.call('Page.navigate', { url: 'about:blank' })
    await this.call('Page.navigate', { url })
    await until(`loading ${url}`,
      () => this.evaluate('document.readyState === "complete" && location.href !== "about:blank"'))
  }

  async size(width, height, dark) {
    const mobile = width < 800, features = [{ name: 'prefers-color-scheme', value: dark ? 'dark' : 'light' }]
    const metrics = { width, height, deviceScaleFactor: mobile ? 2 : 1, mobile }
    await this.call('Emulation.setDeviceMetricsOverride', metrics)
    await this.call('Emulation.setEmulatedMedia', { features })
  }

  async key(key, modifiers = 0) {
    const text = key === 'Enter' ? '\r' : key.length === 1 && !modifiers ? key : undefined
    for (const type of ['keyDown', 'keyUp']) {
      const more = type === 'keyDown' ? { text } : {}
      await this.call('Input.dispatchKeyEvent',
        { type, key, code: key, modifiers, windowsVirtualKeyCode: CODES[key] ?? 0, ...more })
    }
  }

  type(text) { return this.call('Input.insertText', { text }) }

  async mouse(x, y, ...types) {
    for (const type of ['mouseMoved', ...types]) {
      const button = type === 'mouseMoved' ? 'none' : 'left'
      await this.call('Input.dispatchMouseEvent', { type, x, y, button, clickCount: 1 })
    }
  }

  async shot(file) {
    const { data } = await this.call('Page.captureScreenshot', { format: 'png' })
    writeFileSync(file, Buffer.from(data, 'base64'))
  }

  /** Returns what the browser did while `work` ran, as it traces it. */
  async traced(work) {
    const traceConfig = { includedCategories: ['toplevel', 'blink.user_timing', 'devtools.timeline'] }
    await this.pipe.call('Tracing.start', { traceConfig, transferMode: 'ReportEvents' })
    await work()
    await this.pipe.call('Tracing.end')
    await until('the trace', () => this.heard.some(({ method }) => method === 'Tracing.tracingComplete'))
    const isTracing = ({ method }) => /^Tracing/.test(method), told = this.heard.filter(isTracing)
    this.pipe.heard = this.heard.filter(it => !isTracing(it))
    return told.flatMap(it => it.params.value ?? [])
  }

  async close() {
    const ended = new Promise(done => this.pipe.child.once('exit', done))
    this.pipe.call('Browser.close').catch(() => {})
    await Promise.race([ended, pause(5000)])
    this.pipe.child.kill()
    rmSync(this.profile, { recursive: true, force: true, maxRetries: 20, retryDelay: 100 })
  }
}
