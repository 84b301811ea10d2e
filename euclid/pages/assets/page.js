// What a page does: steps that are pointed at, keys, the choice of steps, search, the graph.
const root = document.documentElement.dataset.root ?? ''
const all = (selector, from = document) => [...from.querySelectorAll(selector)]
const one = (selector, from = document) => from.querySelector(selector)

// ---- the proof and its figures

const Proof = {
  start() {
    const text = one('#data')?.textContent
    this.rows = all('.steps > tbody > tr')
    if (!text || !this.rows.length) return
    const data = JSON.parse(text)
    this.steps = data.steps
    this.boxes = all('[data-chapter]')
    this.figures = this.boxes.map((box, at) => new Figure(box, data.chapters[at]))
    this.current = null
    this.chapter = 0
    all('[hidden]', one('#figure')).forEach(each => { if (each.matches('.buttons')) each.hidden = false })
    all('#proof > [hidden]').forEach(each => { each.hidden = false })
    this.rows.forEach(row => {
      row.addEventListener('pointerenter', event => { if (event.pointerType === 'mouse' && !this.kept) this.point(row) })
      row.addEventListener('click', event => { if (!event.target.closest('a, details')) this.keep(row) })
      row.addEventListener('focusin', () => this.point(row))
    })
    one('.steps').addEventListener('pointerleave', () => { if (!this.kept) this.point(null) })
    one('#back')?.addEventListener('click', () => this.go(-1))
    one('#forth')?.addEventListener('click', () => this.go(1))
    one('#whole')?.addEventListener('click', () => this.keep(null))
    one('#other')?.addEventListener('click', () => this.figures[this.chapter].another())
    addEventListener('keydown', event => this.key(event))
    addEventListener('hashchange', () => this.follow())
    all('[name=steps]').forEach(each => each.addEventListener('change', () => this.choose()))
    this.figures.forEach(figure => figure.enliven((holds, held) => this.tell(holds, held)))
    this.choose()
    this.follow()
  },

  // What the page says of a figure that was moved.
  tell(holds, held) {
    const figure = one('#figure')
    figure.dataset.holds = holds
    figure.dataset.held = held
    const said = one('.held', figure) ?? figure.appendChild(Object.assign(document.createElement('p'), { className: 'held' }))
    said.textContent = held ? `Held back: ${held}.` : ''
  },

  follow() {
    const row = location.hash.length > 1 && document.getElementById(decodeURIComponent(location.hash.slice(1)))
    if (row && this.rows.includes(row)) this.keep(row, false)
  },

  // Shows the figure of a row and where its premises are.
  point(row) {
    if (row === this.current) return
    this.current = row
    all('.from-here').forEach(each => each.classList.remove('from-here'))
    this.rows.forEach(each => each.classList.toggle('here', each === row))
    const number = row ? row.id.slice(1) : ''
    const [chapter, state] = this.steps[number] ?? (row ? [this.chapter, undefined] : [0, undefined])
    this.chapter = chapter
    this.boxes.forEach((box, at) => { box.hidden = at !== chapter })
    this.figures[chapter]?.show(state)
    const by = row && one('td:nth-of-type(2) > a', row)
    one('#caption').textContent = row ? `${number}. ${one('td > div', row).textContent}` : ''
    if (by?.title) one('#caption').append(Object.assign(document.createElement('small'), { textContent: `${by.textContent}: ${by.title}` }))
    const other = one('#other')
    if (other) other.hidden = (this.figures[chapter]?.figures?.length ?? 1) < 2
    if (!row) return
    for (const each of all('td:last-child a', row)) {
      const names = each.dataset.all?.split(' ') ?? [each.hash.slice(1)]
      names.forEach(name => document.getElementById(name)?.classList.add('from-here'))
    }
  },

  // Points at a row until another one is chosen.
  keep(row, scroll = true) {
    this.kept = row
    this.point(row)
    if (row && scroll) row.scrollIntoView({ block: 'nearest' })
  },

  // The next row that is shown, or the one before.
  go(by) {
    const shown = this.rows.filter(row => row.offsetParent !== null)
    const at = shown.indexOf(this.kept ?? this.current)
    const next = shown[at < 0 ? (by > 0 ? 0 : shown.length - 1) : at + by]
    if (next) this.keep(next)
  },

  key(event) {
    if (event.altKey || event.ctrlKey || event.metaKey || event.target.closest('input, textarea, select, .handle')) return
    if (event.key === 'ArrowRight') this.go(1)
    else if (event.key === 'ArrowLeft') this.go(-1)
    else if (event.key === 'Escape') this.keep(null)
    else return
    event.preventDefault()
  },

  choose() {
    const value = one('[name=steps]:checked')?.value ?? 'all'
    one('.steps').dataset.show = value
  },
}

// ---- search

const SIGNS = [[/\b(?:angle|ang)\b\s*/gi, '∠'], [/\b(?:triangle|area)\b\s*/gi, '△'], [/\bseg(?:ment)?\b\s*/gi, ''],
  [/\bright( angle)?\b/gi, '∟'], [/!=/g, '≠'], [/<=/g, '≤']]

const Search = {
  start() {
    const box = one('.search')
    if (!box || typeof SEARCH === 'undefined') return
    box.hidden = false
    this.input = one('input', box)
    this.list = one('ol', box)
    this.input.addEventListener('input', () => this.find())
    this.input.addEventListener('focus', () => this.find())
    this.input.addEventListener('keydown', event => this.key(event))
    box.addEventListener('focusout', event => { if (!box.contains(event.relatedTarget)) this.list.hidden = true })
    addEventListener('keydown', event => {
      if (event.key === '/' && !event.target.closest('input, textarea')) { event.preventDefault(); this.input.focus() }
    })
  },

  key(event) {
    const links = all('a', this.list)
    if (event.key === 'Escape') { this.input.value = ''; this.find(); this.input.blur() }
    if (event.key === 'Enter' && links.length) links[0].click()
    if (event.key === 'ArrowDown' && links.length) { event.preventDefault(); links[0].focus() }
  },

  find() {
    const query = this.input.value.trim()
    const found = query ? this.ranked(query).slice(0, 12) : []
    this.list.replaceChildren(...found.map(([title, file, words, shown]) => {
      const item = document.createElement('li'), link = document.createElement('a')
      link.href = root + file
      const name = document.createElement('b'), said = document.createElement('span')
      name.textContent = title
      said.textContent = words || shown
      link.append(name, ' ', said)
      item.append(link)
      return item
    }))
    if (query && !found.length) this.list.append(Object.assign(document.createElement('li'), { textContent: 'nothing found' }))
    this.list.hidden = !query
  },

  // What fits, the best first: the title, its beginning, what is shown, then words.
  ranked(query) {
    const low = query.toLowerCase(), words = low.split(/\s+/), shapes = shapesOf(query)
    const rank = ([title, , said, shown]) => {
      const name = title.toLowerCase()
      if (name === low) return 0
      if (shapes.size && shown.split('; ').some(each => shapes.has(shapeOf(each)))) return 1
      if (name.startsWith(low)) return 2
      if (name.includes(low)) return 3
      const text = `${name} ${said} ${shown}`.toLowerCase()
      return (shapes.size ? [low] : words).every(word => text.includes(word)) ? 4 : 9
    }
    return SEARCH.map((row, at) => [rank(row), at, row]).filter(([n]) => n < 9)
      .sort((a, b) => a[0] - b[0] || a[1] - b[1]).map(([, , row]) => row)
  },
}

// A literal with its points by the order in which they come, so that AB = AC and PQ = PR are one.
function shapeOf(text) {
  const names = new Map()
  return text.replace(/[A-Z][0-9']*/g, name => {
    if (!names.has(name)) names.set(name, String.fromCharCode(97 + names.size))
    return names.get(name)
  }).replace(/\s+/g, '')
}

// The shapes of a query that compares: with its terms in either direction, and its sides exchanged.
function shapesOf(query) {
  let text = query
  for (const [words, sign] of SIGNS) text = text.replace(words, sign)
  if (!/[=≠<≤]/.test(text)) return new Set()
  text = text.replace(/\b([a-z](?:\s+[a-z]){0,2})\b/g, names => names.replace(/\s+/g, '').toUpperCase()).toUpperCase()
  const terms = text.match(/[A-Z]{2,3}/g) ?? []
  const sides = text.split(/([=≠<≤])/)
  const turned = /[=≠]/.test(text) && sides.length === 3 ? [text, `${sides[2]}${sides[1]}${sides[0]}`] : [text]
  const found = new Set()
  for (const each of turned) {
    for (let bits = 0; bits < 1 << Math.min(terms.length, 5); bits++) {
      let at = 0
      found.add(shapeOf(each.replace(/[A-Z]{2,3}/g, term => (bits >> at++ & 1 ? [...term].reverse().join('') : term))))
    }
  }
  return found
}

// ---- the graph: what a theorem rests on, and what rests on it

const Graph = {
  start() {
    all('svg.graph').forEach(svg => {
      const edges = all('path[data-of]', svg), nodes = new Map(all('a[data-title]', svg).map(a => [a.dataset.title, a]))
      const cone = (title, from, to, found = new Set()) => {
        edges.filter(each => each.dataset[from] === title && !found.has(each)).forEach(each => {
          found.add(each)
          cone(each.dataset[to], from, to, found)
        })
        return found
      }
      const mark = title => {
        const below = title ? cone(title, 'of', 'on') : new Set(), above = title ? cone(title, 'on', 'of') : new Set()
        svg.classList.toggle('marked', Boolean(title))
        edges.forEach(each => { each.classList.toggle('below', below.has(each)); each.classList.toggle('above', above.has(each)) })
        const under = new Set([...below].map(each => each.dataset.on)), over = new Set([...above].map(each => each.dataset.of))
        nodes.forEach((node, name) => {
          node.classList.toggle('here', name === title)
          node.classList.toggle('below', under.has(name))
          node.classList.toggle('above', over.has(name))
        })
      }
      nodes.forEach((node, name) => {
        for (const word of ['pointerenter', 'focus']) node.addEventListener(word, () => mark(name))
        for (const word of ['pointerleave', 'blur']) node.addEventListener(word, () => mark(null))
      })
    })
  },
}

addEventListener('DOMContentLoaded', () => { Proof.start(); Search.start(); Graph.start() })
