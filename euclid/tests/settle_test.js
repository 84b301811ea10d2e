// Reads lines of JSON: a name and the `move` of a figure. For each it gives the values of all measures at its numbers;
// then it drags each declared point by some small moves, and gives the numbers after each. Used by test_settle.py.
const Settle = require('../pages/assets/settle.js')
const lines = require('fs').readFileSync(0, 'utf8').trim().split('\n')
for (const line of lines) {
  const [name, move] = JSON.parse(line)
  const rules = Settle.prepare(move), values = rules.map(rule => rule.value(move.x))
  const start = Settle.settle(move.x, rules)
  const after = []
  let x = start.x, held = 0, spent = process.hrtime.bigint()
  for (const number of move.drag) {
    const place = move.at[number]
    for (const [dx, dy] of [[0.05, 0.02], [-0.03, 0.04]]) {
      const found = Settle.drag(move, rules, x, place, [x[place] + dx, x[place + 1] + dy])
      held += found.held >= 0
      x = found.x
      after.push(x)
    }
  }
  spent = Number(process.hrtime.bigint() - spent) / 1e6
  console.log(JSON.stringify({ name, values, broken: start.broken?.fact ?? -1, start: start.x, after, held, spent }))
}
