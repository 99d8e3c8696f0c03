// What a reader sees of values, of which every text is escaped already. `labels` are the attributes in their order, `names` their
// words, the same for all digests, and `strength` the digests, the one to see first.
const TIMES = ['Atime', 'Mtime', 'Ctime'], SIDES = ['old', 'new'], VARIOUS = 'various', OWNERS = ['UID', 'GID'];
const PAIRS = ['Type', 'Perm', ...OWNERS];

function timeOf(seconds) {
  const time = new Date(seconds * 1000);
  return isNaN(time) ? undefined : time.toISOString().replace('T', ' ').replace('.000Z', ' UTC');
}

// A value of a side as it is, and the text that people read in its place, if it has one; nothing if there is no value.
const textsOf = (values, side, label) => values && Object.hasOwn(values[side], label) ? [].concat(values[side][label]) : [];
const exactOf = (values, side, label) => textsOf(values, side, label).slice(0, 1).map(String)[0];

function meaningOf(values, side, label) {
  const [exact, text] = textsOf(values, side, label);
  if (OWNERS.includes(label) && exact === 0) return 'root';
  return text === undefined && TIMES.includes(label) && Number.isSafeInteger(exact) ? timeOf(exact) : text;
}

const isVarious = ({ head }, side, label) => side === 'old' && (head.old_various || []).includes(label);

function cellOf(entry, side, label) {
  const exact = exactOf(entry.values, side, label), meaning = meaningOf(entry.values, side, label);
  if (isVarious(entry, side, label)) return make('td', { class: 'none' }, VARIOUS);
  if (exact === undefined) return make('td', { class: 'none' }, 'none');
  if (meaning === undefined || meaning === exact) return make('td', {}, exact);
  return make('td', {}, make('details', {}, make('summary', {}, meaning), exact));
}

function tableOf(entry, rows) {
  const titles = ['Attribute', 'Old', 'New'].map((title) => make('th', { scope: 'col' }, title));
  const titleOf = (label) => make('th', { scope: 'row' }, strength.includes(label) ? label : names[label]);
  return make('table', {}, make('tr', {}, ...titles), ...rows.map((label) =>
    make('tr', {}, titleOf(label), ...SIDES.map((side) => cellOf(entry, side, label)))));
}

// The values of an entry, null without any. Of its digests the first one is seen; the others open on demand.
function valuesOf(entry) {
  if (!entry.values) return null;
  const others = labels.filter((label) => entry.labels.includes(label) && !strength.includes(label));
  const digests = strength.filter((label) => entry.labels.includes(label)), count = digests.length - 1;
  const parts = entry.labels.length ? [tableOf(entry, [...others, ...digests.slice(0, 1)])] : [];
  if (count > 0) {
    const title = count + (count === 1 ? ' other digest' : ' other digests');
    parts.push(make('details', {}, make('summary', {}, title), tableOf(entry, digests.slice(1))));
  }
  const each = entry.head.per_host || [];
  if (each.length) parts.push(make('p', { class: 'hint' }, 'Of each host: ' + each.map((label) => names[label]).join(', ')));
  return parts.length ? parts : null;
}

// By how much a file has grown; the size of one that is there on one side only.
function growthOf(kind, values) {
  const [old, now] = SIDES.map((side) => exactOf(values, side, 'Size'));
  if (kind === 'changed') return old === undefined || now === undefined ? undefined : Number(now) - Number(old);
  return Number(kind === 'added' ? now : old);
}

// An attribute that has changed: of the type and a right both values, of the size by how much.
function changeOf(entry, label) {
  const { values, size } = entry;
  if (label === 'Size' && size) return names.Size + ' ' + (size > 0 ? '+' : '\u2212') + Math.abs(size);
  if (!values || !PAIRS.includes(label)) return names[label];
  const texts = SIDES.map((side) => isVarious(entry, side, label) ? VARIOUS
    : meaningOf(values, side, label) || exactOf(values, side, label) || 'none');
  return label === 'Type' ? texts.join(' -> ').toLowerCase() : names[label] + ' ' + texts.join(' -> ');
}

// Permissions, owner and size of an entry that is there on one side only; of a changed one what has changed.
function factsOf(entry) {
  const { kind, values, attribute } = entry, side = { added: 'new', removed: 'old' }[kind];
  if (side && values) {
    if ((entry.head.old_various || []).length && side === 'old') return [VARIOUS];
    const [mode, user, group, bytes] = ['Perm', 'UID', 'GID', 'Size'].map((label) =>
      meaningOf(values, side, label) || exactOf(values, side, label));
    const owner = [user, group].filter((part) => part !== undefined).join(':');
    const facts = [mode, owner, bytes === undefined ? '' : bytes + ' bytes'].filter(Boolean);
    if (facts.length) return facts;
  }
  if (kind !== 'changed') return attribute.split(', ');
  return [...new Set(entry.labels.map((label) => changeOf(entry, label)))];
}

// The heading: of what the page is, the counts, and what is missing. If every change is listed, the buttons have the counts too, so
// these are only printed.
function showHeading({ title, facts, databases, counts, is_whole: isWhole, remarks, lists, outcome }) {
  const rows = (pairs) => pairs.map(([name, value]) => make('div', { class: name.toLowerCase().replaceAll(' ', '-') },
    make('dt', {}, name), make('dd', {}, typeof value === 'number' ? number(value) : value)));
  const parts = [make('h1', {}, title)];
  if (outcome) parts.push(make('p', { class: 'outcome' }, outcome));
  if (facts.length) parts.push(make('dl', { class: 'facts' }, ...rows(facts)));
  if (databases.length) {
    const about = databases.flatMap(({ side, name, time, sha256 }) => [make('dt', {}, side), make('dd', {}, make('code', {}, name),
      time ? ' of ' + time : '', make('small', {}, 'SHA-256 ', make('code', {}, sha256)))]);
    const list = make('dl', {}, ...about), hint = make('p', { class: 'hint' }, HINT);
    parts.push(counts.length
      ? make('details', { class: 'about' }, make('summary', {}, 'Databases, and what the words mean'), list, hint)
      : make('div', { class: 'about' }, list));
  }
  if (counts.length) parts.push(make('dl', { class: isWhole ? 'counts printed' : 'counts' }, ...rows(counts)));
  for (const remark of remarks) parts.push(make('p', { class: 'remark' }, remark));
  for (const [name, lines] of lists) {
    const list = make('ul', {}, ...lines.map((line) => make('li', {}, line)));
    const details = make('details', {}, make('summary', {}, name), list);
    details.open = name.startsWith('Not');
    parts.push(details);
  }
  find('header').replaceChildren(...parts);
}
