// The front end for JavaScript and TypeScript: languages/front.py has what it is asked, and what it answers.
//
// Whoever runs it defines `parse`, of @babel/parser, and `fields`, a map of the fields of the grammar's constructors: node.js, and the page.
// Trees are ESTree's, but what ESTree has under one name, or two at one place, has names of its own here, so that no two children of a node
// overlap. Positions are bytes of the source in UTF-8.
'use strict'

const PLUGINS = { script: ['jsx'], module: ['jsx'], typescript: ['typescript', 'decorators-legacy'], tsx: ['typescript', 'jsx', 'decorators-legacy'], declarations: [['typescript', { dts: true }]] }

const like = (type, it, more) => ({ ...it, ...more, type })
const has = it => it !== null && it !== undefined && it !== false && !(Array.isArray(it) && it.length === 0)
// A node with parts that plain JavaScript doesn't have is another constructor, so that rules for plain ones don't lose them.
const typed = (it, names) => names.some(name => has(it[name]))
const method = (it, more) => like('Method', { ...it.value, ...more }, { start: it.start, end: it.end, key: it.key, computed: it.computed })
const loop = it => it && it.type === 'VariableDeclaration' ? like('LoopVariables', it) : it
const literal = it => it.regex ? like('RegExpLiteral', it, it.regex)
  : it.bigint !== undefined && it.bigint !== null ? like('BigIntLiteral', it, { digits: it.bigint + 'n' })
    : it.value === null ? like('NullLiteral', it)
      : typeof it.value === 'boolean' ? like('BooleanLiteral', it)
        : typeof it.value === 'string' ? like('StringLiteral', it)
          : like('NumberLiteral', it, { value: Number.isSafeInteger(it.value) ? it.value : String(it.value) })
// where a sign is, outside of comments
const sign = (wanted, at) => {
  while (text[at] !== wanted) {
    if (text.startsWith('//', at)) at = text.indexOf('\n', at)
    else if (text.startsWith('/*', at)) at = text.indexOf('*/', at) + 2
    else at++
  }
  return at
}
const clauses = it => {
  const all = it.specifiers
  const named = all.filter(it => it.type === 'ImportSpecifier')
  const others = all.filter(it => it.type !== 'ImportSpecifier')
  if (!named.length) return others
  const start = sign('{', others.length ? others[others.length - 1].end : it.start)
  return [...others, { type: 'ImportNames', specifiers: named, start, end: sign('}', named[named.length - 1].end) + 1 }]
}
const FUNCTION = ['returnType', 'typeParameters', 'declare', 'predicate']
const shape = (name, of) => it => typed(it, of) ? like('Typed' + name, it, { declare: !!it.declare }) : like(name, it)

const classes = name => it => typed(it, ['decorators', 'implements', 'typeParameters', 'superTypeParameters', 'abstract', 'declare']) ? like('Typed' + name, it, { decorators: it.decorators || [], implements: it.implements || [], abstract: !!it.abstract, declare: !!it.declare }) : it
const SHAPES = {
  Literal: literal,
  ExpressionStatement: it => it.directive !== undefined ? like('Directive', it, { raw: it.directive }) : it,
  ForStatement: it => ({ ...it, init: loop(it.init) }),
  ForInStatement: it => ({ ...it, left: loop(it.left) }),
  ForOfStatement: it => ({ ...it, left: loop(it.left) }),
  MethodDefinition: it => {
    const made = method(it, { static: !!it.static, kind: it.kind })
    if (!made.body) return like('TSDeclareMethod', made, { ...flags(it), accessibility: it.accessibility })
    const extra = ['decorators', 'accessibility', 'override', 'optional', 'abstract'].filter(name => has(it[name]))
    if (!extra.length && !typed(it.value, FUNCTION)) return made
    return like('TypedMethod', made, { ...flags(it), accessibility: it.accessibility })
  },
  Property: it => it.shorthand ? like('Shorthand', it)
    : it.method || it.kind !== 'init' ? (typed(it.value, FUNCTION)
        ? like('TypedMethod', method(it, { kind: it.method ? 'method' : it.kind }), flags(it))
        : method(it, { static: false, kind: it.method ? 'method' : it.kind })) : it,
  PropertyDefinition: it => typed(it, ['decorators', 'accessibility', 'override', 'optional', 'definite', 'declare', 'readonly', 'typeAnnotation', 'abstract'])
    ? like('TypedPropertyDefinition', it, flags(it)) : it,
  MemberExpression: it => it.computed ? like('IndexExpression', it, { index: it.property }) : it,
  UpdateExpression: it => like(it.prefix ? 'PrefixUpdate' : 'PostfixUpdate', it),
  ArrowFunctionExpression: shape('ArrowFunction', FUNCTION),
  FunctionExpression: shape('FunctionExpression', FUNCTION),
  FunctionDeclaration: shape('FunctionDeclaration', FUNCTION),
  TSDeclareFunction: it => ({ ...it, declare: !!it.declare, async: !!it.async, generator: !!it.generator }),
  ClassDeclaration: classes('ClassDeclaration'),
  ClassExpression: classes('ClassExpression'),
  CallExpression: shape('CallExpression', ['typeParameters', 'typeArguments']),
  NewExpression: shape('NewExpression', ['typeParameters', 'typeArguments']),
  Identifier: it => it.typeAnnotation || it.optional ? like('TypedIdentifier', it, { optional: !!it.optional }) : it,
  ObjectPattern: it => it.typeAnnotation ? withType(it) : { ...it, properties: it.properties.map(pattern) },
  ArrayPattern: it => it.typeAnnotation ? withType(it) : it,
  RestElement: shape('RestElement', ['typeAnnotation']),
  VariableDeclaration: it => it.declare ? like('DeclaredVariables', it) : it,
  VariableDeclarator: it => it,
  TaggedTemplateExpression: it => like(it.typeParameters ? 'TypedTaggedTemplate' : 'TaggedTemplate', it),
  TemplateElement: it => ({ ...it, raw: it.value.raw }),
  TemplateLiteral: it => ({
    ...it,
    parts: it.quasis.flatMap((quasi, at) => at === 0 ? [quasi]
      : [{ type: 'Interpolation', start: it.quasis[at - 1].end, end: quasi.start, expression: it.expressions[at - 1] }, quasi])
  }),
  ImportDeclaration: it => it.specifiers.length === 0 ? like('ImportBare', it)
    : like(it.importKind === 'type' ? 'ImportTypes' : 'ImportDeclaration', it, { clauses: clauses(it) }),
  ImportDefaultSpecifier: it => like('ImportDefault', it),
  ImportNamespaceSpecifier: it => like('ImportNamespace', it),
  ImportSpecifier: it => like(it.importKind === 'type' ? 'ImportTypeSpecifier' : 'ImportSpecifier', it, it.local.start === it.imported.start ? { local: null } : {}),
  ExportSpecifier: it => it.local.start === it.exported.start ? { ...it, exported: null } : it,
  ExportNamedDeclaration: it => like(it.declaration ? 'ExportDeclaration' : it.exportKind === 'type' ? 'ExportTypes' : 'ExportNames', it),
  ExportDefaultDeclaration: it => /Declaration$|^TSDeclareFunction$/.test(it.declaration.type) ? it : like('ExportDefault', it, { expression: it.declaration }),
  ExportAllDeclaration: it => like(it.exportKind === 'type' ? 'ExportAllTypes' : 'ExportAll', it),
  JSXAttribute: it => it.value && it.value.type === 'Literal' ? { ...it, value: like('JSXString', it.value) } : it,
  JSXText: it => ({ ...it, raw: it.extra ? it.extra.raw : it.raw !== undefined ? it.raw : it.value }),
  JSXString: it => ({ ...it, raw: it.extra ? it.extra.raw : it.raw }),
  TSParameterProperty: it => ({ ...it, override: !!it.override, readonly: !!it.readonly, decorators: it.decorators || [] }),
  TSModuleDeclaration: it => ({ ...it, declare: !!it.declare, keyword: it.global ? 'global' : it.kind || text.slice(it.start, it.id.start).trim().split(/\s+/).pop() }),
  TSMappedType: it => ({ ...it, name: it.typeParameter.name, constraint: it.typeParameter.constraint, readonly: modifier(it.readonly), optional: modifier(it.optional) }),
  TSTypePredicate: it => ({ ...it, asserts: !!it.asserts, type: it.type, ...(it.typeAnnotation ? { is: it.typeAnnotation.typeAnnotation } : {}) }),
  TSFunctionType: it => ({ ...it, result: it.typeAnnotation.typeAnnotation }),
  TSConstructorType: it => ({ ...it, abstract: !!it.abstract, result: it.typeAnnotation.typeAnnotation }),
  TSDeclareMethod: it => ({ ...it, ...flags(it) }),
  TSAbstractMethodDefinition: it => like('TSDeclareMethod', it, { ...it.value, start: it.start, end: it.end, ...flags(it), abstract: true, kind: it.kind }),
  TSAbstractPropertyDefinition: it => like('TypedPropertyDefinition', it, { ...flags(it), abstract: true }),
  TSInterfaceDeclaration: it => ({ ...it, declare: !!it.declare, extends: it.extends || [] }),
  TSTypeAliasDeclaration: it => ({ ...it, declare: !!it.declare }),
  TSEnumDeclaration: it => ({ ...it, declare: !!it.declare, const: !!it.const }),
  TSPropertySignature: it => ({ ...it, readonly: !!it.readonly, computed: !!it.computed, optional: !!it.optional }),
  TSMethodSignature: it => ({ ...it, computed: !!it.computed, optional: !!it.optional, kind: it.kind || 'method' }),
  TSIndexSignature: it => ({ ...it, static: !!it.static, readonly: !!it.readonly }),
  TSImportEqualsDeclaration: it => ({ ...it, isExport: !!it.isExport }),
  TSNamedTupleMember: it => ({ ...it, optional: !!it.optional }),
  TSTypeParameter: it => ({ ...it, in: !!it.in, out: !!it.out, const: !!it.const })
}
const modifier = it => it === true ? 'yes' : it === '+' || it === '-' ? it : 'no'
const flags = it => ({ decorators: it.decorators || [], static: !!it.static, override: !!it.override, optional: !!it.optional, abstract: !!it.abstract, readonly: !!it.readonly, declare: !!it.declare, definite: !!it.definite, computed: !!it.computed })
const pattern = it => it.type === 'Property' && !it.shorthand ? like('PatternProperty', it) : it
const withType = it => like('TypedPattern', it, { pattern: { ...it, typeAnnotation: null, end: inner(it) } })
// where a pattern with a type ends itself
const inner = it => { let at = it.typeAnnotation.start; while (/\s|\?/.test(text[at - 1])) at--; return at }

const utf8 = new TextEncoder()
const octal = byte => '\\' + byte.toString(8).padStart(3, '0')
const quoted = text => '"' + text.replace(/["\\]|[^ -~]+/g, it =>
  it === '"' ? '\\"' : it === '\\' ? '\\\\' : Array.from(utf8.encode(it), octal).join('')) + '"'

let text, out, terms, deepest, byte, places
function write (it, level) {
  terms++
  if (level > deepest) deepest = level
  if (Array.isArray(it)) {
    out += '['
    for (let at = 0; at < it.length; at++) { if (at) out += ','; write(it[at], level + 1) }
    out += ']'
  } else if (it === null || it === undefined) out += 'Absent'
  else if (it === true) out += 'True'
  else if (it === false) out += 'False'
  else if (typeof it === 'number') out += it
  else if (typeof it === 'string') out += quoted(it)
  else node(it, level)
}

function node (it, level) {
  // brackets aren't in the tree
  while (it.type === 'TSParenthesizedType') it = it.typeAnnotation
  let shaped = it
  for (let before = ''; shaped.type !== before && SHAPES[shaped.type] && shaped.shaped !== shaped.type;) {
    before = shaped.type
    shaped = SHAPES[before](shaped)
    shaped.shaped = shaped.type
  }
  const names = fields.get(shaped.type)
  if (!names) throw Object.assign(new Error('no constructor for ' + shaped.type), { pos: it.start })
  out += shaped.type
  for (let at = 0; at < names.length; at++) { out += at ? ',' : '('; write(shaped[names[at]], level + 1) }
  if (names.length) out += ')'
  if (places && shaped.start !== undefined) {
    out += `{(${byte(shaped.start)},${byte(shaped.end)})}`
    terms += 3
    if (level + 2 > deepest) deepest = level + 2
  }
}

// The byte of each character.
function bytes () {
  if (!/[^\0-\x7f]/.test(text)) return at => at
  const found = new Uint32Array(text.length + 1)
  for (let at = 0, sum = 0; at < text.length; at++) {
    const code = text.charCodeAt(at)
    // the second half of a pair is where the pair ends
    sum += code < 0x80 ? 1 : code < 0x800 ? 2 : code >= 0xd800 && code < 0xdc00 ? 4 : code >= 0xdc00 && code < 0xe000 ? 0 : 3
    found[at + 1] = sum
  }
  return at => found[at]
}

const OPTIONS = { allowReturnOutsideFunction: true, allowSuperOutsideMethod: true, allowUndeclaredExports: true, allowNewTargetOutsideFunction: true, attachComment: false }
function parsed (kind) {
  const plugins = [['estree', { classFeatures: true }], ...PLUGINS[kind]]
  const as = sourceType => parse(text, { ...OPTIONS, plugins, sourceType, allowAwaitOutsideFunction: sourceType === 'module' }).program
  if (kind === 'module') return as('module')
  const first = kind !== 'script' || /^[ \t]*(?:import|export)\b/m.test(text) ? 'module' : 'script'
  try { return as(first) } catch (error) {
    try { return as(first === 'module' ? 'script' : 'module') } catch { throw error }
  }
}

/** The term of a source, `{ term, terms, deepest }`, with positions or without; or what is wrong with it, `{ place, message }`. */
function answer (kind, wanted, source) {
  text = source
  byte = bytes()
  places = wanted
  try {
    const tree = parsed(kind)
    out = ''; terms = 0; deepest = 0
    // a program is the whole text
    tree.start = 0; tree.end = text.length
    write(tree, 1)
    return { term: out, terms, deepest }
  } catch (error) {
    const message = String(error.message).split('\n')[0].replace(/ \(\d+:\d+\)$/, '')
    return { place: byte(Math.min(error.pos || 0, text.length)), message }
  }
}
