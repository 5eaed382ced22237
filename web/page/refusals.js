// ---- why a step is refused, in words ----------------------------------------------------
const ownerIn = (state, m) => state.mutexes[m - 1].owner

/** Says who owns a mutex, whom that task waits for, and so on, back to the task that asks for it. */
function cycle(state, a, m) {
  const owner = ownerIn(state, m)
  if (owner === a) return `task ${a} owns mutex ${m}`
  const next = state.tasks[owner - 1].waits
  return `task ${owner} owns mutex ${m} and waits for mutex ${next}; ${cycle(state, a, next)}`
}

const REFUSALS = {
  'no-task': (state, { a, first }) => `task ${a > state.tasks.length ? a : first} isn't declared`,
  'waiting': (state, { a }) =>
    `task ${a} waits for mutex ${state.tasks[a - 1].waits}, and can only withdraw that request`,
  'no-mutex': (_, { first }) => `mutex ${first} isn't declared`,
  'deadlock': (state, { a, first }) => `${cycle(state, a, first)}: task ${a} would wait for itself`,
  'ceiling': (state, { a, first }) => `the base of task ${a}, ${state.tasks[a - 1].base}, is above`
    + ` the ceiling of mutex ${first}, ${state.mutexes[first - 1].ceiling}`,
  'busy': (state, { first }) => `task ${ownerIn(state, first)} owns mutex ${first}`,
  'not-owner': (state, { a, first }) => ownerIn(state, first)
    ? `task ${ownerIn(state, first)} owns mutex ${first}, and task ${a} doesn't`
    : `mutex ${first} is free`,
  'not-waiting': (_, { first }) => `task ${first} doesn't wait for a mutex`,
  'priority': (_, { second }) => `${second} isn't a priority, which is 1 to 99`,
  'tickets': () => 'the tickets are used up',
  'not-protect': (_, { first }) => `mutex ${first} isn't a protect one, and has no ceiling`,
  'again': (_, { first }) => `mutex ${first} is locked 255 times, which is the most`,
}

/** Returns a sentence that says why step k is refused, or nothing if it isn't. The step changes
 * nothing, so the state after it is the one in which it is refused. */
function refusal(view, k, state) {
  const [refused, name] = view.reply(k).split(' ')
  if (refused !== 'refused') return ''
  const [a, , first, second] = asked(view, k).split(' ').map(Number)
  return `Step ${k} is refused: ${REFUSALS[name](state, { a, first, second })}.`
}
