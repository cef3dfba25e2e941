// Returns a function that calls `act` at once, and again at most every so many milliseconds, each time with the last arguments: for what is shown of
// something that changes in each frame.
export function atMostEvery(milliseconds, act) {
  let timer = null, last = null;
  const next = () => {
    timer = null;
    if (!last) return;
    const args = last;
    last = null;
    timer = setTimeout(next, milliseconds);
    act(...args);
  };
  return (...args) => { last = args; if (timer === null) next(); };
}
