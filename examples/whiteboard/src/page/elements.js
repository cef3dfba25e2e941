// Elements by their ids, and new ones.
const SVG = 'http://www.w3.org/2000/svg';

export const at = (id) => document.getElementById(id);

export function svg(name, attributes = {}) {
  const made = document.createElementNS(SVG, name);
  for (const [key, value] of Object.entries(attributes)) made.setAttribute(key, value);
  return made;
}

// Sets what differs: an attribute that is set again has the browser lay out and paint the element again.
export function setAttributes(element, attributes) {
  for (const [key, value] of Object.entries(attributes)) if (element.getAttribute(key) !== String(value)) element.setAttribute(key, value);
}

// Has the browser make nothing of a finger that is dragged on an element. It begins a fling even if it may not scroll there, and while that lasts the
// next tap is no click.
export function keepFingers(element) { element.addEventListener('touchmove', (event) => event.preventDefault(), { passive: false }); }
