// refusals.mjs PAGE: what refusals.js says of a step that is refused, without a browser. PAGE is the folder of the
// page's scripts. Prints a line of JSON for each scene: its name, what was said, and what was wanted, by hand.
import { readFileSync } from 'node:fs'

const source = ['trace', 'refusals'].map(name => readFileSync(`${process.argv[2]}/${name}.js`, 'utf8')).join('\n')
const refusal = new Function(`'use strict'\n${source}\nreturn refusal`)()

// Task 1 owns mutexes 1 and 3, and waits for mutex 4 of task 2, for which task 3 waits as well. Mutex 2 is free.
const STATE = {
  tasks: [{ base: 10, waits: 4 }, { base: 50, waits: 0 }, { base: 20, waits: 4 }],
  mutexes: [
    { owner: 1, kind: 'inherit', ceiling: 0 }, { owner: 0, kind: 'protect', ceiling: 40 },
    { owner: 1, kind: 'inherit recursive', ceiling: 0 }, { owner: 2, kind: 'none', ceiling: 0 },
  ],
}

/** Says why the last line is refused as step 2, after a version and seven declarations, if the report has this reply. */
const said = (line, reply) => refusal({
  first: 8, lines: [...Array(9).fill(''), line], reply: k => k === 2 ? reply : 'granted' }, 2, STATE)

const SCENES = {
  'an unknown task': ['4 lock 1', 'refused no-task', "task 4 isn't declared"],
  'a new base of an unknown task': ['2 base 9 10', 'refused no-task', "task 9 isn't declared"],
  'a task that waits': ['1 lock 2', 'refused waiting', 'task 1 waits for mutex 4, and can only withdraw that request'],
  'an unknown mutex': ['2 lock 5', 'refused no-mutex', "mutex 5 isn't declared"],
  'a mutex of its own': ['2 lock 4', 'refused deadlock', 'task 2 owns mutex 4: task 2 would wait for itself'],
  'a cycle': ['2 lock 1', 'refused deadlock',
    'task 1 owns mutex 1 and waits for mutex 4; task 2 owns mutex 4: task 2 would wait for itself'],
  'a base above a ceiling': ['2 lock 2', 'refused ceiling', 'the base of task 2, 50, is above the ceiling of mutex 2, 40'],
  'a try of an owned mutex': ['2 try 3', 'refused busy', 'task 1 owns mutex 3'],
  'an unlock by another task': ['2 unlock 1', 'refused not-owner', "task 1 owns mutex 1, and task 2 doesn't"],
  'an unlock of a free mutex': ['2 unlock 2', 'refused not-owner', 'mutex 2 is free'],
  'a cancel of no request': ['1 cancel 2', 'refused not-waiting', "task 2 doesn't wait for a mutex"],
  'a base that is no priority': ['2 base 1 100', 'refused priority', "100 isn't a priority, which is 1 to 99"],
  'a ceiling of an inherit mutex': [
    '2 ceil 1 50', 'refused not-protect', "mutex 1 isn't a protect one, and has no ceiling"],
  'a lock too many': ['1 lock 3', 'refused again', 'mutex 3 is locked 255 times, which is the most'],
  'a recorded reply that differs': [
    '2 unlock 2 = granted', 'refused not-owner but recorded granted', 'mutex 2 is free'],
}

for (const [name, [line, reply, why]] of Object.entries(SCENES)) {
  let got
  try { got = [said(line, reply), said(line, 'granted')] } catch (error) { got = error.stack }
  console.log(JSON.stringify([name, JSON.stringify(got), JSON.stringify([`Step 2 is refused: ${why}.`, ''])]))
}
