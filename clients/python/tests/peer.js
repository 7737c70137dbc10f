// What recast makes of the files that the client changed, by the same rule; and what a parser says of both.
//
// Standard input has {rule, files: [{name, before, after, lost}]}, where `after` is null for a file that didn't change. Standard output has
// how many files recast changed, how many it touched in which it changed nothing, how many of them have the same tree as ours; the files in
// which it left out empty statements, those in which it wrote what is new into the line `#!..`, those in which it wrote another tree than it
// had, as where it indents the lines of a template literal, and all others in which it differs; and what is wrong with ours: files that aren't
// parsed, and comments that are gone and weren't named.
'use strict'
const recast = require('recast')
const babel = require('@babel/parser')
const { visit, namedTypes: n, builders: b } = require('ast-types')

const OPTIONS = { plugins: ['estree', 'jsx'], allowReturnOutsideFunction: true, allowSuperOutsideMethod: true, allowUndeclaredExports: true, tokens: true }
const parse = text => {
  const module = /^[ \t]*(?:import|export)\b/m.test(text)
  try { return babel.parse(text, { ...OPTIONS, sourceType: module ? 'module' : 'script' }) } catch { return babel.parse(text, { ...OPTIONS, sourceType: module ? 'script' : 'module' }) }
}
const named = (it, name) => n.Identifier.check(it) && it.name === name
const isString = it => n.Literal.check(it) && typeof it.value === 'string'
const isNull = it => n.Literal.check(it) && it.value === null && !it.regex
const isMinusOne = it => n.UnaryExpression.check(it) && it.operator === '-' && it.argument.value === 1
const SKIPPED = new Set(['loc', 'original', 'tokens', 'comments', 'extra'])
const parts = it => Object.keys(it).filter(key => !SKIPPED.has(key) && it[key] && typeof it[key] === 'object').map(key => it[key])
// whether a test holds somewhere in a tree, but not within what `stop` says
const some = (it, test, stop = () => false) => Array.isArray(it) ? it.some(one => some(one, test, stop))
  : !!it && (typeof it.type !== 'string' || test(it) || !stop(it)) && (typeof it.type === 'string' && test(it) || parts(it).some(one => some(one, test, stop)))
const isFunction = it => ['FunctionExpression', 'FunctionDeclaration', 'ClassBody'].includes(it.type)
const isOwn = it => ['ThisExpression', 'Super', 'MetaProperty'].includes(it.type) || named(it, 'arguments')

const RULES = {
  includes: tree => visit(tree, {
    visitBinaryExpression (at) {
      this.traverse(at)
      const { left: c, operator: op, right: r } = at.node
      if (!n.CallExpression.check(c) || c.arguments.length !== 1 || !n.MemberExpression.check(c.callee) || c.callee.computed || !named(c.callee.property, 'indexOf')) return
      const found = (isMinusOne(r) && ['!==', '!=', '>'].includes(op)) || (r.value === 0 && op === '>=')
      const missing = (isMinusOne(r) && ['===', '=='].includes(op)) || (r.value === 0 && op === '<')
      const call = b.callExpression(b.memberExpression(c.callee.object, b.identifier('includes')), c.arguments)
      if (found || missing) at.replace(found ? call : b.unaryExpression('!', call))
    }
  }),
  null: tree => visit(tree, {
    visitLogicalExpression (at) {
      this.traverse(at)
      const { left: l, operator: op, right: r } = at.node
      const want = op === '||' ? '===' : op === '&&' ? '!==' : ''
      if (!n.BinaryExpression.check(l) || !n.BinaryExpression.check(r) || l.operator !== want || r.operator !== want || !n.Identifier.check(l.left) || !named(r.left, l.left.name)) return
      const one = isNull(l.right) && named(r.right, 'undefined') ? l.right : named(l.right, 'undefined') && isNull(r.right) ? r.right : null
      if (one) at.replace(b.binaryExpression(want.slice(0, 2), l.left, one))
    }
  }),
  typeof: tree => visit(tree, {
    visitBinaryExpression (at) {
      this.traverse(at)
      const { left: l, operator: op, right: r } = at.node
      if (n.UnaryExpression.check(l) && l.operator === 'typeof' && isString(r) && (op === '==' || op === '!=')) at.replace(b.binaryExpression(op + '=', l, r))
    }
  }),
  arrow: tree => visit(tree, {
    visitCallExpression (at) {
      this.traverse(at)
      at.get('arguments').each(it => {
        const f = it.node
        if (!n.FunctionExpression.check(f) || f.generator || f.id || some([f.body, ...f.params], isOwn, isFunction)) return
        const arrow = b.arrowFunctionExpression(f.params, f.body)
        arrow.async = f.async
        it.replace(arrow)
      })
    }
  }),
  template: tree => visit(tree, {
    visitBinaryExpression (at) {
      const all = []
      let left = at.node
      for (; n.BinaryExpression.check(left) && left.operator === '+'; left = left.left) all.unshift(left.right)
      all.unshift(left)
      const texts = all.filter(isString)
      if (all.length > 1 && (isString(all[0]) || isString(all[1])) && texts.length < all.length && !all.some(n.TemplateLiteral.check.bind(n.TemplateLiteral)) && !texts.some(it => /[`\\$\x00-\x1f]/.test(it.value))) {
        const quasis = ['']
        const expressions = []
        for (const it of all) if (isString(it)) quasis[quasis.length - 1] += it.value; else { expressions.push(it); quasis.push('') }
        at.replace(b.templateLiteral(quasis.map((raw, k) => b.templateElement({ raw, cooked: raw }, k === quasis.length - 1)), expressions))
      }
      this.traverse(at)
    }
  }),
  argument: tree => visit(tree, {
    visitCallExpression (at) {
      this.traverse(at)
      const { callee: f, arguments: all } = at.node
      if (named(f, 'parseInt') && all.length === 1 && !n.SpreadElement.check(all[0])) all.push(b.literal(10))
    }
  }),
  else: tree => {
    const ends = s => !!s && (/^(Return|Throw)Statement$/.test(s.type) || (s.type === 'BlockStatement' && ends(s.body[s.body.length - 1])))
    const scoped = s => /^(Function|Class)Declaration$/.test(s.type) || (s.type === 'VariableDeclaration' && s.kind !== 'var')
    const list = all => {
      for (let k = 0; k < all.length; k++) {
        const s = all[k]
        if (s.type !== 'IfStatement' || !s.alternate || !ends(s.consequent)) continue
        const own = s.alternate.type === 'BlockStatement' ? s.alternate.body : [s.alternate]
        if (own.some(scoped)) continue
        s.alternate = null
        all.splice(k + 1, 0, ...own)
      }
    }
    visit(tree, {
      visitProgram (at) { list(at.node.body); this.traverse(at) },
      visitBlockStatement (at) { list(at.node.body); this.traverse(at) },
      visitSwitchCase (at) { list(at.node.consequent); this.traverse(at) }
    })
  },
  require: tree => {
    const body = tree.program.body
    let at = 0
    while (body[at] && body[at].directive !== undefined) at++
    body.splice(at, 0, b.variableDeclaration('const', [b.variableDeclarator(b.identifier('pth'), b.callExpression(b.identifier('require'), [b.literal('path')]))]))
  }
}

// a tree as text, without what isn't of it
const bare = it => JSON.stringify(it.program, (key, value) => ['start', 'end', 'loc', 'extra', 'raw', 'range', 'leadingComments', 'trailingComments', 'innerComments', 'interpreter'].includes(key) ? undefined : typeof value === 'bigint' ? String(value) : value)
// the same without empty statements
const filled = it => JSON.stringify(JSON.parse(bare(it)), (key, value) => Array.isArray(value) ? value.filter(one => !one || one.type !== 'EmptyStatement') : value)
const isInFirstLine = (before, theirs) => before.startsWith('#!') && theirs.startsWith(before.split('\n')[0]) && theirs.split('\n')[0] !== before.split('\n')[0]
// whether recast has the same tree as ours, and writes another one only because it keeps old text: all written anew is that tree
const isMiswritten = (tree, ours) => { try { return bare(parse(recast.prettyPrint(tree).code)) === bare(ours) } catch { return false } }
const words = it => it.trim().replace(/\s+/g, ' ')
const counted = all => { const found = new Map(); for (const it of all) found.set(it, (found.get(it) || 0) + 1); return found }
const comments = tree => (tree.comments || []).map(it => words(it.value))

let input = ''
process.stdin.on('data', it => { input += it }).on('end', () => {
  const { rule, files } = JSON.parse(input)
  const found = { rules: Object.keys(RULES), changed: 0, touched: 0, same: 0, broken: 0, lost: 0, empty: [], hidden: [], miswritten: [], other: [], wrong: [], seconds: 0 }
  for (const { name, before, after, lost } of files) {
    if (after !== null) {
      try {
        const left = counted(comments(parse(after)))
        for (const it of lost) { const text = words(it.replace(/^\/\/|^\/\*|\*\/$/g, '')); left.set(text, (left.get(text) || 0) + 1) }
        for (const [it, count] of counted(comments(parse(before)))) if ((left.get(it) || 0) !== count) found.wrong.push(`${name}: ${count} comments are ${left.get(it) || 0}: ${it}`)
      } catch (error) { found.wrong.push(`${name}: ${error.message}`) }
    }
    if (!RULES[rule]) continue
    const begun = process.cpuUsage()
    let given, theirs
    try {
      given = recast.parse(before, { parser: { parse } })
      RULES[rule](given)
      theirs = recast.print(given, { quote: 'single' }).code
    } catch { found.broken++; continue }
    const used = process.cpuUsage(begun)
    found.seconds += (used.user + used.system) / 1e6
    if (theirs === before) { if (after !== null) found.other.push(name); continue }
    try {
      const tree = parse(theirs)
      // recast may write a text anew in which the rule changed nothing
      if (bare(tree) === bare(parse(before))) { found.touched++; if (after !== null) (isInFirstLine(before, theirs) ? found.hidden : found.other).push(name); continue }
      found.changed++
      const have = counted(comments(tree))
      for (const [it, count] of counted(comments(parse(before)))) found.lost += Math.max(0, count - (have.get(it) || 0))
      const ours = parse(after === null ? before : after)
      if (bare(tree) === bare(ours)) found.same++
      else if (filled(tree) === filled(ours)) found.empty.push(name)
      else if (isMiswritten(given, ours)) found.miswritten.push(name)
      else found.other.push(name)
    } catch { found.broken++ }
  }
  process.stdout.write(JSON.stringify(found))
})
