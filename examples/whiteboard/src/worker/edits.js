// Edits as the page sends them: lists of a call's name and its arguments. Which arguments are ids is written here, so that a text that looks like a
// reference stays a text.
const IDS = { create: [1, 2], createLast: [1], createFirst: [1], createAt: [1], move: [0, 1, 2], moveLast: [0, 1], moveFirst: [0, 1], moveAt: [0, 1],
  set: [0], setJson: [0], clear: [0], delete: [0] };
const isCreation = (name) => name.startsWith('create');

// In place of an id `$` is the last object that was created, `$0` the first, `$1` the second.
const refer = (id, made) => id === '$' ? made.at(-1) : /^\$\d+$/.test(id ?? '') ? made[Number(id.slice(1))] : id;

// A value as the page sends it: a colour, alone or in a list, is no instance of its class any more.
const valueOf = (value, Colour) => Array.isArray(value) ? value.map((it) => valueOf(it, Colour)) : value?.rgba === undefined ? value : new Colour(value.rgba);

// Makes edits in order. The first that is refused ends them, and so does one with a value that is none. Returns { ids, refused }: of what was created,
// and the edit that ended them, with the reason.
export function doEdits(client, { ClientError, Colour }, edits) {
  const ids = [];
  for (const [name, ...given] of edits) {
    const places = IDS[name] ?? [], args = given.map((arg, k) => places.includes(k) ? refer(arg, ids) : valueOf(arg, Colour));
    try {
      const answer = client[name](...args);
      if (isCreation(name)) ids.push(answer);
    } catch (fault) {
      const code = fault instanceof ClientError ? fault.code : fault.name;
      return { ids, refused: { edit: name, id: isCreation(name) ? null : args[0], property: args[1] ?? null, code, words: fault.message } };
    }
  }
  return { ids, refused: null };
}
