// What a reader asks for: filters and an order, as they are written in the address after "#". Nothing here knows the page.
// `choices` are the words of the filters.
// The number by which an order sorts entries; those that are equal in it stay in path order.
const KEYS = {
  importance: ({ place }) => place,
  path: () => 0,
  kind: ({ kind }) => choices.kind.indexOf(kind),
  severity: ({ severity }) => severity ? choices.severity.indexOf(severity) : choices.severity.length,
  size: ({ size }) => -Math.abs(size),
};

// A view from its text. A filter without words takes every entry; several words take what has one of them.
function viewOf(text) {
  const view = { package: new Set(), path: '', directory: '', order: '', page: 1, values: '' };
  for (const name of Object.keys(choices)) view[name] = new Set();
  for (const [name, value] of new URLSearchParams(text)) {
    if (Object.hasOwn(choices, name)) {
      for (const word of value.split(',')) if (choices[name].includes(word)) view[name].add(word);
    } else if (name === 'package' && value) {
      view.package.add(value);
    } else if (name === 'path' || name === 'directory' || name === 'order' && Object.hasOwn(KEYS, value)
      || name === 'values' && value === 'shown') {
      view[name] = value;
    } else if (name === 'page' && /^[1-9][0-9]{0,8}$/.test(value)) {
      view.page = Number(value);
    }
  }
  return view;
}

// The words that are chosen of a filter, in their order.
const chosen = (view, name) => (choices[name] || [...view.package].sort()).filter((word) => view[name].has(word));

// A view as the address has it.
function textOf(view) {
  const parts = new URLSearchParams();
  for (const name of Object.keys(choices)) if (view[name].size) parts.append(name, chosen(view, name).join(','));
  for (const name of chosen(view, 'package')) parts.append('package', name);
  for (const name of ['path', 'directory', 'order']) if (view[name]) parts.append(name, view[name]);
  if (view.page > 1) parts.append('page', view.page);
  if (view.values) parts.append('values', view.values);
  return parts.toString().replaceAll('%2C', ',').replaceAll('%2F', '/').replaceAll('%3A', ':');
}

// Whether an entry fits; `folded` is the text of the path filter in small letters.
function fits(view, folded, entry) {
  return ['kind', 'standing', 'severity', 'package'].every((name) => !view[name].size || view[name].has(entry[name]))
    && (!view.attribute.size || [...view.attribute].some((name) => entry.attribute.includes(name)))
    && (!folded || entry.folded.includes(folded))
    && (!view.directory || entry.path === view.directory || entry.path.startsWith(view.directory + '/'));
}

// Entries, given in the order of paths, in another order.
function ordered(entries, order) {
  const keyed = entries.map((entry) => [KEYS[order](entry), entry]);
  return keyed.sort((one, two) => one[0] - two[0]).map(([, entry]) => entry);
}
