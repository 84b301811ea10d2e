// The figure of a page: what a step shows, and points that can be moved. The shapes of its parts are those of
// euclid/drawing/elements.py.
const TICK = 5, GAP = 4, RING = 3.2, OVERSHOOT = 20

class Figure {
  constructor(box, data, label) {
    this.box = box
    this.svg = box.querySelector('svg')
    this.els = data.els
    this.parts = [...this.svg.children].slice(0, this.els.length)
    this.states = data.states
    this.move = data.move
    this.paper = data.paper
    this.label = label
    this.names = {}
    this.shown = this.sums()
    if (this.move) {
      this.rules = Settle.prepare(this.move)
      this.x = this.move.x.slice()
      this.start = { x: this.move.x, paper: this.paper, names: {} }
      this.figures = [this.start, ...this.move.others]
      this.which = 0
    }
  }

  // The parts that each state shows.
  sums() {
    const found = []
    let now = new Set()
    for (const [more, less] of this.states) {
      now = new Set(now)
      less.forEach(part => now.delete(part))
      more.forEach(part => now.add(part))
      found.push(now)
    }
    return found
  }

  // Shows the state of a step, or the whole figure.
  show(state = this.states.length - 1) {
    const classes = {}
    for (const [word, parts] of Object.entries(this.states[state][2])) parts.forEach(part => { classes[part] = word })
    this.els.forEach(([kind, look], at) => {
      const off = this.shown[state].has(at) || at in classes ? '' : 'off'
      const words = [kind, look === kind ? '' : look, classes[at], off].filter(Boolean).join(' ')
      if (this.parts[at].getAttribute('class') !== words) this.parts[at].setAttribute('class', words)
    })
  }

  // Pixels

  at(x, y) {
    const [ox, oy, scale] = this.paper
    return [ox + x * scale, oy - y * scale]
  }
  spot(number) {
    const place = this.move.at[number]
    return this.at(this.x[place], this.x[place + 1])
  }
  line(number) {
    const [, ...curve] = this.move.at[number], o = [0, 0, 0, 0]
    Settle.lineAt(curve)(this.x, o)
    return o
  }
  circle(number) {
    const [, ...curve] = this.move.at[number], o = [0, 0, 0]
    Settle.circleAt(curve)(this.x, o)
    return o
  }

  // Draws all parts where they are now.
  draw() {
    this.els.forEach((element, at) => {
      const found = this.shape(element, at)
      for (const [name, value] of Object.entries(found)) {
        const text = typeof value === 'number' ? value.toFixed(1) : value
        if (this.parts[at].getAttribute(name) !== text) this.parts[at].setAttribute(name, text)
      }
    })
    this.handles?.forEach((handle, at) => {
      const [x, y] = this.spot(this.move.drag[at])
      handle.setAttribute('cx', x.toFixed(1))
      handle.setAttribute('cy', y.toFixed(1))
    })
  }

  shape([kind, , refs, ...numbers], at) {
    switch (kind) {
      case 'segment': case 'part': case 'band': return ends(farthest(refs.map(n => this.spot(n))))
      case 'line': case 'lineband': return ends(this.lineEnds(refs))
      case 'circle': case 'disc': {
        const [x, y, radius] = this.circle(refs[0]), [cx, cy] = this.at(x, y)
        return { cx, cy, r: radius * this.paper[2] }
      }
      case 'dot': case 'ring': {
        const [cx, cy] = this.spot(refs[0])
        return { cx, cy }
      }
      case 'area': return { points: refs.map(n => this.spot(n).map(v => v.toFixed(1)).join(',')).join(' ') }
      case 'tick': return { d: ticks(this.spot(refs[0]), this.spot(refs[1]), ...numbers) }
      case 'arc': case 'wedge': case 'square': return { d: corner(kind, refs.map(n => this.spot(n)), numbers) }
      default: return this.name(kind, refs, numbers, at)
    }
  }

  name(kind, refs, numbers, at) {
    let x, y
    if (kind === 'name') {
      const [dx, dy] = this.names[at] ?? numbers
      ;[x, y] = this.spot(refs[0])
      x += dx; y += dy
    } else if (kind === 'roundname') {
      const [cx, cy, radius] = this.circle(refs[0]), reach = radius * this.paper[2] + 10
      ;[x, y] = this.at(cx, cy)
      x += reach * Math.cos(numbers[0]); y += reach * Math.sin(numbers[0])
    } else {
      const [ax, ay, bx, by] = kind === 'linename' ? this.lineEnds(refs) : farthest(refs.map(n => this.spot(n)))
      const length = Math.hypot(bx - ax, by - ay) || 1, ux = (bx - ax) / length, uy = (by - ay) / length
      const [part, aside] = numbers
      x = ax + part * length * ux - aside * uy; y = ay + part * length * uy + aside * ux
    }
    return { x, y: y + 5 }
  }

  // The ends of a line that goes on beyond its points.
  lineEnds([line, ...points]) {
    const [x, y, dx, dy] = this.line(line), [px, py] = this.at(x, y), ux = dx, uy = -dy
    const along = points.map(n => { const [qx, qy] = this.spot(n); return (qx - px) * ux + (qy - py) * uy })
    let first = -1e4, last = 1e4
    for (const [start, way, size] of [[px, ux, this.paper[3]], [py, uy, this.paper[4]]]) {
      if (Math.abs(way) > 1e-9) {
        const [near, far] = [(6 - start) / way, (size - 6 - start) / way].sort((a, b) => a - b)
        first = Math.max(first, near); last = Math.min(last, far)
      }
    }
    if (first >= last) { first = -60; last = 60 }
    if (along.length) {
      const room = along.length > 1 ? OVERSHOOT : 4 * OVERSHOOT
      first = Math.max(first, Math.min(...along) - room); last = Math.min(last, Math.max(...along) + room)
    }
    return [px + first * ux, py + first * uy, px + last * ux, py + last * uy]
  }

  // Moving

  // Makes the declared points movable, by pointer and by keys.
  enliven(told) {
    if (!this.move || this.handles) return
    this.told = told
    this.svg.setAttribute('role', 'group')
    this.handles = this.move.drag.map(number => {
      const handle = document.createElementNS('http://www.w3.org/2000/svg', 'circle')
      handle.setAttribute('class', 'handle')
      handle.setAttribute('r', '15')
      handle.setAttribute('tabindex', '0')
      handle.setAttribute('role', 'button')
      handle.setAttribute('aria-label', `Point ${this.nameOf(number)}: move it with the arrow keys`)
      handle.addEventListener('pointerdown', event => this.grab(event, handle, number))
      handle.addEventListener('keydown', event => this.key(event, number))
      this.svg.append(handle)
      return handle
    })
    this.x = Settle.settle(this.x, this.rules).x
    this.draw()
    this.say(-1)
  }

  nameOf(number) {
    const at = this.els.findIndex(([kind, , refs]) => kind === 'name' && refs[0] === number)
    return at < 0 ? '' : this.parts[at].textContent
  }

  grab(event, handle, number) {
    event.preventDefault()
    handle.focus({ preventScroll: true })
    handle.setPointerCapture(event.pointerId)
    let next = null
    const step = () => { if (next) { const to = next; next = null; this.moveTo(number, to) } }
    const move = each => {
      if (!next) requestAnimationFrame(step)
      next = this.place(each)
    }
    const end = () => {
      handle.removeEventListener('pointermove', move)
      step()
      this.say(-1)
    }
    handle.addEventListener('pointermove', move)
    handle.addEventListener('pointerup', end, { once: true })
    handle.addEventListener('pointercancel', end, { once: true })
  }

  // The place in the figure of a pointer, inside of the paper.
  place(event) {
    const box = this.svg.getBoundingClientRect(), [ox, oy, scale, width, height] = this.paper
    const px = Math.min(Math.max((event.clientX - box.left) * width / box.width, 6), width - 6)
    const py = Math.min(Math.max((event.clientY - box.top) * height / box.height, 6), height - 6)
    return [(px - ox) / scale, (oy - py) / scale]
  }

  key(event, number) {
    const ways = { ArrowLeft: [-1, 0], ArrowRight: [1, 0], ArrowUp: [0, 1], ArrowDown: [0, -1] }
    const way = ways[event.key]
    if (!way) return
    event.preventDefault()
    event.stopPropagation()
    const place = this.move.at[number], far = event.shiftKey ? 0.25 : 0.05
    this.moveTo(number, [this.x[place] + way[0] * far, this.x[place + 1] + way[1] * far])
  }

  // Moves a point towards a place, as far as the facts let it come.
  moveTo(number, to) {
    const found = Settle.drag(this.move, this.rules, this.x, this.move.at[number], to)
    this.x = found.x
    this.draw()
    this.say(found.held)
    return found
  }

  holds() { return this.rules.every(rule => Settle.isKept(rule, this.x)) }
  say(held) { this.told(this.holds(), held < 0 ? '' : this.move.facts[held]) }

  // Another figure of the same theorem.
  another() {
    this.which = (this.which + 1) % this.figures.length
    const { x, paper, names } = this.figures[this.which]
    this.paper = paper
    this.names = names
    this.x = Settle.settle(x, this.rules).x
    const [, , , width, height] = paper
    this.svg.setAttribute('viewBox', `0 0 ${Math.round(width)} ${Math.round(height)}`)
    this.svg.setAttribute('width', Math.round(width))
    this.svg.setAttribute('height', Math.round(height))
    this.draw()
    this.say(-1)
  }
}

function ends([x1, y1, x2, y2]) { return { x1, y1, x2, y2 } }

function farthest(spots) {
  let best = -1, found = [0, 0, 0, 0]
  spots.forEach((q, at) => spots.slice(0, at).forEach(p => {
    const far = Math.hypot(p[0] - q[0], p[1] - q[1])
    if (far > best) { best = far; found = [...p, ...q] }
  }))
  return found
}

function ticks([ax, ay], [bx, by], count, part) {
  const length = Math.hypot(bx - ax, by - ay) || 1, ux = (bx - ax) / length, uy = (by - ay) / length
  let text = ''
  for (let at = 0; at < count; at++) {
    const along = part * length + (at - (count - 1) / 2) * GAP, x = ax + along * ux, y = ay + along * uy
    text += `M${(x - TICK * uy).toFixed(1)} ${(y + TICK * ux).toFixed(1)}L${(x + TICK * uy).toFixed(1)} ${(y - TICK * ux).toFixed(1)}`
  }
  return text
}

// Arcs, a sector or a square in an angle.
function corner(kind, [a, v, b], numbers) {
  const one = Math.atan2(v[1] - a[1], a[0] - v[0]), other = Math.atan2(v[1] - b[1], b[0] - v[0])
  let turn = (other - one) % (2 * Math.PI), first = one
  if (turn < 0) turn += 2 * Math.PI
  if (turn > Math.PI) { first = other; turn = 2 * Math.PI - turn }
  const last = first + turn
  const spot = (radius, way) => `${(v[0] + radius * Math.cos(way)).toFixed(1)} ${(v[1] - radius * Math.sin(way)).toFixed(1)}`
  const arc = radius => `M${spot(radius, first)}A${radius} ${radius} 0 0 0 ${spot(radius, last)}`
  if (kind === 'wedge') return `${arc(numbers[0])}L${v[0].toFixed(1)} ${v[1].toFixed(1)}Z`
  if (kind === 'square') {
    const size = numbers[0], [c, s, d, t] = [Math.cos(first), Math.sin(first), Math.cos(last), Math.sin(last)]
    return 'M' + [[c, s], [c + d, s + t], [d, t]]
      .map(([x, y]) => `${(v[0] + size * x).toFixed(1)} ${(v[1] - size * y).toFixed(1)}`).join('L')
  }
  const [count, radius] = numbers
  return Array.from({ length: count }, (_, at) => arc(radius + RING * at)).join('')
}
