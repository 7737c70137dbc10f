// Serves the front end by node: it is run by `node -e`, before front.js, with the fields of the grammar's constructors as JSON.
'use strict'
const { parse } = require('@babel/parser')
const fields = new Map(Object.entries(JSON.parse(process.argv[1])))

function said ({ term, terms, deepest, place, message }) {
  return term !== undefined ? `ok ${terms} ${deepest} ${term.length}\n${term}\n` : `no ${place} ${Buffer.byteLength(message)}\n${message}\n`
}

// Pieces are joined once a request is whole.
let got = []; let length = 0; let wanted = 0
function serve () {
  for (;;) {
    if (length < wanted || length === 0) return
    const all = got.length === 1 ? got[0] : Buffer.concat(got)
    got = [all]
    const end = all.indexOf(10)
    if (end < 0) return
    const [, kind, positions, size] = all.subarray(0, end).toString().split(' ')
    wanted = end + 1 + Number(size)
    if (length < wanted) return
    process.stdout.write(said(answer(kind, positions === '1', all.subarray(end + 1, wanted).toString('utf8'))))
    got = [all.subarray(wanted)]
    length -= wanted
    wanted = 0
  }
}
process.stdin.on('data', data => { got.push(data); length += data.length; serve() })
