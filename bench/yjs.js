// node yjs.js < LOG: plays a log on one Y.Doc, whose map `objects` has for each id a map of the
// object's kind, place and properties. A hundred requests make one transaction. It judges nothing;
// ids by parent are kept beside it, so that a deletion finds what lies below.
const Y = require('yjs')
const fs = require('fs')

const doc = new Y.Doc()
const objects = doc.getMap('objects')
const children = new Map()

function put (id, object, parent, pos) {
  object.set('place', [parent, pos])
  if (!children.has(parent)) children.set(parent, new Set())
  children.get(parent).add(id)
}

function remove (id) {
  const ids = [id]
  for (const at of ids) {
    ids.push(...(children.get(at) || []))
    children.delete(at)
    objects.delete(at)
  }
}

function play (line) {
  const [, verb, id, ...words] = line.split(' ')
  if (verb === 'create') {
    const object = new Y.Map()
    object.set('kind', words[0])
    objects.set(id, object)
    put(id, object, words[1], words.slice(2).join(' '))
  } else if (verb === 'move') {
    const object = objects.get(id)
    children.get(object.get('place')[0]).delete(id)
    put(id, object, words[0], words.slice(1).join(' '))
  } else if (verb === 'set') {
    objects.get(id).set('.' + words[0], JSON.parse(words.slice(1).join(' ')))
  } else if (verb === 'delete') {
    remove(id)
  }
}

const lines = fs.readFileSync(0, 'utf8').split('\n').filter(line => line.includes(' '))
for (let i = 0; i < lines.length; i += 100) {
  doc.transact(() => lines.slice(i, i + 100).forEach(play))
}
console.log(`${objects.size} objects, ${Y.encodeStateAsUpdate(doc).length} bytes`)
