// Light or dark: as the system has it, until the switch is used. The style sheet has both colours of everything.
import { at } from './elements.js';

const KEPT = 'whiteboard theme', dark = matchMedia('(prefers-color-scheme: dark)');

const kept = () => { try { return localStorage.getItem(KEPT); } catch { return null; } };
const isDark = () => (kept() ?? (dark.matches ? 'dark' : 'light')) === 'dark';

function show() {
  const choice = kept();
  if (choice) document.documentElement.dataset.theme = choice; else delete document.documentElement.dataset.theme;
  at('theme').setAttribute('aria-pressed', isDark());
}

// The other one of the two. If that is what the system has, the page follows the system again.
at('theme').onclick = () => {
  const wanted = isDark() ? 'light' : 'dark', isSystems = (wanted === 'dark') === dark.matches;
  try { if (isSystems) localStorage.removeItem(KEPT); else localStorage.setItem(KEPT, wanted); } catch { document.documentElement.dataset.theme = wanted; return; }
  show();
};
dark.addEventListener('change', show);
addEventListener('storage', ({ key }) => { if (key === KEPT) show(); });
show();
