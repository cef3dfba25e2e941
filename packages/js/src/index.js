// All that the package has, but for where the module and a WebSocket are found: that stands in node.js and browser.js.
export { FAULTS, FINAL_STATES, HEARD, KINDS, NO_REASONS, NUMBERS, REFUSALS, STATES, VERSION } from './api.js';
export { Client, ClientError, Colour, ROOT, compile, readValue, valueText } from './client.js';
export { Flow } from './flow.js';
export { Link, warnBeforeClosing } from './link.js';
export { Presence } from './presence.js';
export { Signal, Signals } from './signals.js';
export { Kept, ReplayError, lockOfBrowser, shelfOfBrowser } from './keep.js';
export { changeOf, isShown, members, remake } from './remake.js';
