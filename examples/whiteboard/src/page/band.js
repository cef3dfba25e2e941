// What a band on the board chooses.
import { DEEPEST, childrenOf, objects } from './doc.js';
import { sizeOf, spotOf } from './values.js';

// Returns the objects that a box of the board touches. A frame is chosen if all of it is in the box; else what it holds is looked at.
export function idsInBand(page, [left, top, width, height]) {
  const found = [], pending = [[page, 0, 0, 0]];
  for (let next; (next = pending.pop());) {
    const [id, x, y, depth] = next;
    for (const child of childrenOf(id)) {
      const object = objects.get(child);
      if (!object) continue;
      const [dx, dy] = spotOf(object), [w, h] = sizeOf(object), a = x + dx, b = y + dy;
      const isTouched = a < left + width && a + w > left && b < top + height && b + h > top;
      const isInside = a >= left && b >= top && a + w <= left + width && b + h <= top + height;
      if (object.kind === 'frame' ? isInside : isTouched) found.push(child);
      else if (object.kind === 'frame' && depth < DEEPEST) pending.push([child, a, b, depth + 1]);
    }
  }
  return found;
}
