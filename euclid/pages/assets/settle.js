// Settling: from numbers near a figure to numbers with which its facts hold. The measures are those of
// euclid/drawing/measures.py, by the same names. A point is the place of its two numbers; a line is
// ['t', i, j] through two points or ['f', k] with an angle and an offset; a circle is ['t', i, j] with its
// center and a point, ['a', i, k] with its center and a radius, or ['f', k] with three numbers.
const Settle = (() => {
  const TINY = 1e-12, STEP = 1e-7, EXACT = 1e-9, ROOM = 1e-3
  const MARGINS = [0.3, 0.25, 0.2] // of lengths, angles, areas
  const SMALL = 0.04 // the part of a margin that is kept
  const ZERO = 0, MORE = 1 // kinds of rules; of kind 2 is what is at least 0
  const FIRM = { dragged: 30, declared: 30, drawn: 0.01 }, SOFT = { dragged: 1, declared: 0.12, drawn: 0.01 }
  const { abs, atan2, cos, hypot, max, min, sin, sqrt } = Math

  // Functions that fill `o` with a point and the direction of a line, or the center and radius of a circle.
  const o = [0, 0, 0, 0], p = [0, 0, 0, 0]
  function lineAt(curve) {
    const [kind, i, j] = curve
    if (kind === 'f') {
      return (x, o) => {
        const c = cos(x[i]), s = sin(x[i]), far = x[i + 1]
        o[0] = c * far; o[1] = s * far; o[2] = -s; o[3] = c
      }
    }
    return (x, o) => {
      const dx = x[j] - x[i], dy = x[j + 1] - x[i + 1], length = hypot(dx, dy) || TINY
      o[0] = x[i]; o[1] = x[i + 1]; o[2] = dx / length; o[3] = dy / length
    }
  }
  function circleAt(curve) {
    const [kind, i, j] = curve
    return (x, o) => {
      o[0] = x[i]; o[1] = x[i + 1]
      o[2] = kind === 't' ? hypot(x[j] - x[i], x[j + 1] - x[i + 1]) : abs(x[kind === 'a' ? j : i + 2])
    }
  }

  const MEASURES = {
    side(i, line) {
      const at = lineAt(line)
      return x => { at(x, o); return o[2] * (x[i + 1] - o[1]) - o[3] * (x[i] - o[0]) }
    },
    apart: (i, j) => x => hypot(x[i] - x[j], x[i + 1] - x[j + 1]),
    outside(i, circle) {
      const at = circleAt(circle)
      return x => { at(x, o); return hypot(x[i] - o[0], x[i + 1] - o[1]) - o[2] }
    },
    offCenter(i, circle) {
      const at = circleAt(circle)
      return x => { at(x, o); return hypot(x[i] - o[0], x[i + 1] - o[1]) }
    },
    along: (i, j, k) => x => {
      const dx = x[k] - x[i], dy = x[k + 1] - x[i + 1], length = hypot(dx, dy) || TINY
      const part = ((x[j] - x[i]) * dx + (x[j + 1] - x[i + 1]) * dy) / length
      return min(part, length - part)
    },
    aside: (i, j, k) => x => {
      const dx = x[k] - x[i], dy = x[k + 1] - x[i + 1]
      return ((x[j] - x[i]) * dy - (x[j + 1] - x[i + 1]) * dx) / (hypot(dx, dy) || TINY)
    },
    sameWay: (i, j, k) => x => {
      const ux = x[i] - x[j], uy = x[i + 1] - x[j + 1], wx = x[k] - x[j], wy = x[k + 1] - x[j + 1]
      return (ux * wx + uy * wy) / (hypot(ux, uy) + hypot(wx, wy) + TINY)
    },
    same(i, j, line) {
      const f = MEASURES.side(i, line), g = MEASURES.side(j, line)
      return x => { const s = f(x), t = g(x); return 2 * s * t / (abs(s) + abs(t) + TINY) }
    },
    sine(one, other) {
      const f = lineAt(one), g = lineAt(other)
      return x => { f(x, o); g(x, p); return o[2] * p[3] - o[3] * p[2] }
    },
    lineDepth(line, circle) {
      const f = lineAt(line), g = circleAt(circle)
      return x => { f(x, o); g(x, p); return p[2] - abs(o[2] * (p[1] - o[1]) - o[3] * (p[0] - o[0])) }
    },
    circleDepth(one, other) {
      const f = circleAt(one), g = circleAt(other)
      return x => {
        f(x, o); g(x, p)
        const d = hypot(o[0] - p[0], o[1] - p[1])
        return min(o[2] + p[2] - d, d - abs(o[2] - p[2]))
      }
    },
    lineSlant(i, line, circle) {
      const f = lineAt(line), g = circleAt(circle)
      return x => {
        f(x, o); g(x, p)
        const ux = x[i] - p[0], uy = x[i + 1] - p[1]
        return (o[2] * ux + o[3] * uy) / (hypot(ux, uy) + TINY)
      }
    },
    circleSlant(i, one, other) {
      const f = circleAt(one), g = circleAt(other)
      return x => {
        f(x, o); g(x, p)
        const ux = p[0] - x[i], uy = p[1] - x[i + 1], wx = o[0] - x[i], wy = o[1] - x[i + 1]
        return (ux * wy - uy * wx) / (hypot(ux, uy) * hypot(wx, wy) + TINY)
      }
    },
    twoLines(one, other) {
      const f = lineAt(one), g = lineAt(other)
      return x => {
        f(x, o); g(x, p)
        return abs(o[2] * p[3] - o[3] * p[2]) + abs(o[2] * (p[1] - o[1]) - o[3] * (p[0] - o[0]))
      }
    },
    twoCircles(one, other) {
      const f = circleAt(one), g = circleAt(other)
      return x => { f(x, o); g(x, p); return hypot(o[0] - p[0], o[1] - p[1]) + abs(o[2] - p[2]) }
    },
    angle: (i, j, k) => x => {
      const ux = x[i] - x[j], uy = x[i + 1] - x[j + 1], wx = x[k] - x[j], wy = x[k + 1] - x[j + 1]
      return atan2(abs(ux * wy - uy * wx), ux * wx + uy * wy)
    },
    area: (i, j, k) => x =>
      abs((x[i] - x[j]) * (x[k + 1] - x[j + 1]) - (x[i + 1] - x[j + 1]) * (x[k] - x[j])) / 2,
    right: () => () => Math.PI / 2,
    nothing: () => () => 0,
  }

  // A measure as a page has it: its name after a sign, and its arguments; a sum has pairs of a number and a measure.
  function measure([word, ...rest]) {
    const sign = word[0] === '-' || word[0] === '|' ? word[0] : ''
    const name = word.slice(sign.length)
    let f
    if (name === 'sum') {
      const parts = rest.map(([n, part]) => [n, measure(part)])
      f = x => { let total = 0; for (const [n, g] of parts) total += n * g(x); return total }
    } else {
      f = MEASURES[name](...rest)
    }
    return sign === '-' ? x => -f(x) : sign === '|' ? x => abs(f(x)) : f
  }

  // The places at which a measure looks.
  function touch([word, ...rest], found = new Set()) {
    const name = word.replace(/^[-|]/, '')
    if (name === 'sum') rest.forEach(([, part]) => touch(part, found))
    else rest.forEach(each => (Array.isArray(each) ? touchCurve(each, name, found) : found.add(each).add(each + 1)))
    return found
  }
  function touchCurve([kind, i, j], name, found) {
    found.add(i).add(i + 1)
    if (kind === 't') found.add(j).add(j + 1)
    if (kind === 'a') found.add(j)
    if (kind === 'f' && !/^(side|same|sine|twoLines)$/.test(name)) found.add(i + 2)
  }

  // The rules of a figure: the kind, the unit, the number of the fact, the function, the places.
  function prepare(move) {
    return move.rules.map(([kind, unit, fact, data]) => ({
      kind, fact, margin: MARGINS[unit] * SMALL, value: measure(data),
      touch: [...touch(data)].filter(place => place < move.x.length),
    }))
  }

  function isKept(rule, x) {
    const value = rule.value(x)
    return rule.kind === ZERO ? abs(value) < EXACT : value > (rule.kind === MORE ? ROOM : -EXACT)
  }

  // What a rule lacks: nothing for a bound that is kept with its margin.
  function lack(rule) {
    const { kind, value } = rule, margin = kind === MORE ? rule.margin : 0
    if (kind === ZERO) return { f: value, touch: rule.touch }
    return { f: x => { const v = value(x); return v < margin ? margin - v : 0 }, touch: rule.touch }
  }

  // Least squares by the method of Levenberg and Marquardt; moves x in place.
  function solve(x, residuals, rounds, goal, damping) {
    const size = x.length
    let values = residuals.map(r => r.f(x)), cost = values.reduce((sum, v) => sum + v * v, 0), slow = 0
    for (let round = 0; round < rounds && cost > goal; round++) {
      const { matrix, slope } = normal(x, residuals, values)
      let done = false
      for (let turn = 0; turn < 12 && !done; turn++) {
        const y = cholesky(matrix, slope, damping)
        const next = x.map((v, i) => v - y[i])
        const nextValues = residuals.map(r => r.f(next))
        const nextCost = nextValues.reduce((sum, v) => sum + v * v, 0)
        if (nextCost < cost) {
          slow = nextCost > 0.98 * cost ? slow + 1 : 0
          for (let i = 0; i < size; i++) x[i] = next[i]
          values = nextValues; cost = nextCost; done = true
          damping = max(damping / 5, 1e-9)
        } else {
          damping = max(damping, 1e-9) * 5
        }
      }
      if (!done || slow >= 5) break
    }
    return cost
  }

  function normal(x, residuals, values) {
    const size = x.length, matrix = [], slope = new Float64Array(size)
    for (let row = 0; row < size; row++) matrix.push(new Float64Array(row + 1))
    residuals.forEach(({ f, touch, slopes }, n) => {
      const value = values[n]
      if (value === 0) return
      const row = touch.map((place, at) => {
        if (slopes) return slopes[at]
        const kept = x[place]
        x[place] = kept + STEP
        const d = (f(x) - value) / STEP
        x[place] = kept
        return d
      })
      touch.forEach((i, a) => {
        slope[i] += row[a] * value
        touch.forEach((j, b) => { if (j <= i) matrix[i][j] += row[a] * row[b] })
      })
    })
    return { matrix, slope }
  }

  // The solution of (M + damping (diag M + 1)) y = slope.
  function cholesky(matrix, slope, damping) {
    const size = slope.length, factor = [], y = new Float64Array(size)
    for (let i = 0; i < size; i++) {
      const row = new Float64Array(i + 1), source = matrix[i]
      for (let j = 0; j < i; j++) {
        let total = source[j]
        const other = factor[j]
        for (let k = 0; k < j; k++) total -= row[k] * other[k]
        row[j] = total / other[j]
      }
      let total = source[i] * (1 + damping) + damping
      for (let k = 0; k < i; k++) total -= row[k] * row[k]
      row[i] = total > 1e-14 ? sqrt(total) : 1e7
      factor.push(row)
      total = slope[i]
      for (let k = 0; k < i; k++) total -= row[k] * y[k]
      y[i] = total / row[i]
    }
    for (let i = size - 1; i >= 0; i--) {
      y[i] /= factor[i][i]
      for (let j = 0; j < i; j++) y[j] -= factor[i][j] * y[i]
    }
    return y
  }

  // Numbers near x with which all equations hold, and the first rule that does not hold there, or null. `pulls` are
  // places with the number and the weight of each. A bound pulls only where nothing is moved: else it is watched.
  function settle(x, rules, pulls = []) {
    const y = x.slice(), equations = rules.filter(rule => rule.kind === ZERO).map(lack)
    if (pulls.length) {
      const soft = pulls.map(([place, to, weight]) =>
        ({ f: z => weight * (z[place] - to), touch: [place], slopes: [weight] }))
      solve(y, [...equations, ...soft], 12, 1e-18, 1e-4)
    }
    solve(y, pulls.length ? equations : rules.map(lack), 30, EXACT * EXACT * 1e-4, 1e-6)
    return { x: y, broken: rules.find(rule => !isKept(rule, y) || pulls.length && isTight(rule, x, y)) ?? null }
  }

  // Whether a bound has less room than its margin, and less than before.
  function isTight(rule, before, now) {
    if (rule.kind !== MORE) return false
    const value = rule.value(now)
    return value < rule.margin && value < rule.value(before)
  }

  // Drags a point to a place: the numbers, and the fact that held it back, or -1. The other declared points stay where
  // they can; else all give way, the declared ones least.
  function drag(move, rules, x, place, to) {
    const own = [place, place + 1], declared = new Set()
    move.drag.forEach(number => declared.add(move.at[number]).add(move.at[number] + 1))
    let broken = null
    for (let part = 1; part > 0.05; part /= 2) {
      const goal = own.map((at, n) => x[at] + part * (to[n] - x[at]))
      const pulls = weights => x.map((v, i) => (own.includes(i)
        ? [i, goal[i - place], weights.dragged] : [i, v, declared.has(i) ? weights.declared : weights.drawn]))
      for (const weights of [FIRM, SOFT]) {
        const found = settle(x, rules, pulls(weights))
        const stayed = [...declared].every(i => own.includes(i) || abs(found.x[i] - x[i]) < 1e-3)
        const came = own.every((at, n) => abs(found.x[at] - goal[n]) < 1e-3)
        if (!found.broken && (weights === SOFT || stayed && came)) {
          return { x: found.x, held: part < 1 ? broken.fact : -1 }
        }
        if (weights === SOFT) broken = found.broken
      }
    }
    return { x, held: broken.fact }
  }

  return { prepare, settle, drag, isKept, measure, touch, lineAt, circleAt }
})()
if (typeof module !== 'undefined') module.exports = Settle
