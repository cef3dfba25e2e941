// Where the keyboard's focus goes.

// Makes a row of buttons one stop of Tab: the arrow keys, Home and End go from button to button.
export function moveFocusByArrows(row) {
  const buttons = () => [...row.querySelectorAll('button:not(:disabled)')];
  const reach = (one) => { for (const button of row.querySelectorAll('button')) button.tabIndex = button === one ? 0 : -1; };
  row.addEventListener('focusin', ({ target }) => { if (target.localName === 'button') reach(target); });
  row.addEventListener('keydown', (event) => {
    const all = buttons(), from = all.indexOf(document.activeElement);
    const to = { ArrowRight: from + 1, ArrowDown: from + 1, ArrowLeft: from - 1, ArrowUp: from - 1, Home: 0, End: all.length - 1 }[event.key];
    if (to === undefined || event.ctrlKey || event.metaKey || event.altKey) return;
    event.preventDefault();
    event.stopPropagation();
    all[(to + all.length) % all.length]?.focus();
  });
  reach(buttons()[0]);
}
