// Makes what is seen of the data of the page: of each change a row, as the lines of aide-compare json have it, with the names of
// its attributes in `labels`, and its values if there was room for them.
const PAGE = 100, FEW = 3, PACKAGES = 4;
const ORDERS = { importance: 'what matters most', size: 'change of size' };
const TITLES = {
  open: 'Open', recorded: 'Recorded', trusted: 'Trusted: the trusted pair went through the same change',
  'left out': 'Left out by a line of the list',
  same: 'Same as before, except times, inode, blocks, the size of a directory and a digest that one side lacks',
};
const HINT = 'Open: all that is not one of the following. Recorded: a package\'s records on the host have this content. Whoever was '
  + 'root there can write such records, so they only shorten what you read. Same: the old entry, except times, inode, blocks, '
  + 'the size of a directory and a digest that one side lacks. Trusted: the trusted pair went through the same change. Left out: a line of the list names it.';
const find = (id) => document.getElementById(id), on = (target, event, act) => target.addEventListener(event, act);
const number = new Intl.NumberFormat('en').format;
const entriesOf = (count) => count === 1 ? '1 entry' : number(count) + ' entries';
// All entries in the order of paths, in each order that was asked for, and those that are shown.
const entries = [], inOrder = new Map();
let view = viewOf(''), matching = [], shownOrder = '', written = '', heading = {};

// An element with its attributes and with what is in it. Every text is put in as text, never as markup.
function make(tag, attributes, ...inner) {
  const element = document.createElement(tag);
  for (const [name, value] of Object.entries(attributes)) element.setAttribute(name, value);
  element.append(...inner);
  return element;
}

// An entry of a row. `section` is the heading of its group.
function entryOf([head, values]) {
  const { path, standing, severity = '', package: name = '' } = head, labels = head.labels.split(' ').filter(Boolean);
  const parts = { open: severity && 'Open, severity ' + severity, recorded: name };
  return {
    head, values, labels, path, standing, severity, kind: head.kind, place: 0, item: null, node: null,
    section: parts[standing] || TITLES[standing], package: name, attribute: [...new Set(labels.map((label) => names[label]))].join(', '),
    size: growthOf(head.kind, values) || 0, folded: path.toLowerCase(), key: path.replaceAll('/', '\0'),
  };
}

// The places of entries in the order of importance: rows have it, and what is silent comes last, by its standing.
function placeByImportance() {
  const rank = ({ standing }) => choices.standing.indexOf(standing);
  entries.sort((one, two) => rank(one) - rank(two)).forEach((entry, place) => { entry.place = place; });
}

// Finds what fits, and counts it directory by directory; what is in the chosen one is shown, in the chosen order.
function filter() {
  const folded = view.path.toLowerCase(), everywhere = { ...view, directory: '' };
  shownOrder = view.order || 'importance';
  if (!inOrder.has(shownOrder)) inOrder.set(shownOrder, ordered(entries, shownOrder));
  const fitting = inOrder.get(shownOrder).filter((entry) => fits(everywhere, folded, entry));
  countNodes(fitting);
  matching = view.directory ? fitting.filter((entry) => fits(view, folded, entry)) : fitting;
}

// The filters in words, also for a page that is printed; nothing without a filter.
function askedWords() {
  const words = [...Object.keys(choices), 'package'].filter((name) => view[name].size)
    .map((name) => name + ' ' + chosen(view, name).join(' or '));
  if (view.path) words.push('path with \u201c' + view.path + '\u201d');
  const parts = words.length ? ['with: ' + words.join(', ')] : [];
  if (view.directory) parts.push('in ' + view.directory + '/');
  return parts.length ? 'Only entries ' + parts.join(', ') + '.' : '';
}

// The item of an entry: its name stands out from its directory, and the package of a recorded one is beside it, if that is not in
// the heading.
function itemOf(entry) {
  if (!entry.item) {
    const { path, head } = entry, cut = path.lastIndexOf('/') + 1, mark = entry.severity === 'high' ? ' high' : '';
    entry.told = make('span', { class: 'reason' }, entry.package ? ' ' + entry.package : '');
    const parts = [
      make('b', { class: entry.kind + mark }, [entry.kind, entry.severity].join(' ')),
      make('code', {}, path.slice(0, cut), make('b', {}, path.slice(cut))),
      entry.told,
      ...head.note ? [make('span', { class: 'reason' }, ' ' + head.note)] : [],
      make('i', {}, ' ', ...factsOf(entry).flatMap((fact) => [', ', make('span', {}, fact)]).slice(1)),
    ];
    const inner = valuesOf(entry);
    entry.item = make('li', {}, ...inner ? [make('details', {}, make('summary', {}, ...parts), ...inner)] : parts);
  }
  const details = entry.item.querySelector('details');
  if (details) details.open = view.values !== '';
  entry.told.hidden = shownOrder === 'importance';
  return entry.item;
}

// Shows some of the entries; in the order of importance with headings, which have the number of entries of all pages.
function showItems(from, count) {
  const sizes = new Map(), list = find('list');
  if (shownOrder === 'importance') for (const { section } of matching) sizes.set(section, (sizes.get(section) || 0) + 1);
  const shown = matching.slice(from, from + count);
  let last = null;
  list.replaceChildren();
  for (const entry of shown) {
    const { section, standing } = entry;
    if (sizes.size && section !== last) {
      const heading = make('h2', {}, section + ': ' + entriesOf(sizes.get(section)));
      list.append(make('li', { class: 'section', 'data-standing': standing }, heading));
    }
    list.append(itemOf(entry));
    last = section;
  }
}

function showList() {
  const pages = Math.max(1, Math.ceil(matching.length / PAGE)), asked = askedWords();
  const found = matching.length === entries.length ? '' : number(matching.length) + ' of ';
  view.page = Math.min(view.page, pages);
  showItems((view.page - 1) * PAGE, PAGE);
  find('found').textContent = found + entriesOf(entries.length) + (view.directory ? ' in ' + view.directory + '/' : '');
  find('asked').textContent = asked;
  find('clear').hidden = !asked;
  find('pager').hidden = pages === 1;
  find('place').textContent = 'Page ' + number(view.page) + ' of ' + number(pages);
  find('previous').disabled = view.page === 1;
  find('next').disabled = view.page === pages;
  find('unfold').setAttribute('aria-pressed', view.values !== '');
  find('order').value = shownOrder;
}

// The search and every other thing that was asked for are written into the address.
function change(what, isFilter = true) {
  view = { ...view, page: 1, ...what };
  filter();
  if (isFilter) showTree();
  showChosen();
  for (const button of find('filters').querySelectorAll('[aria-pressed]')) button.show();
  written = textOf(view);
  if (location.hash.slice(1) !== written) location.replace('#' + written);
  showList();
}

function turn(step) {
  change({ page: view.page + step }, false);
  find('list').scrollIntoView();
}

// How many entries have each word of a filter: in the order of the words, or the most frequent ones first.
function countedWords(name) {
  const whole = new Map(), counts = new Map();
  for (const entry of entries) whole.set(entry[name], (whole.get(entry[name]) || 0) + 1);
  for (const [text, count] of whole) {
    for (const word of name === 'attribute' ? text.split(', ') : [text]) counts.set(word, (counts.get(word) || 0) + count);
  }
  const frequent = (one, two) => counts.get(two) - counts.get(one) || (one < two ? -1 : 1);
  const words = choices[name] || [...counts.keys()].sort(frequent);
  return words.filter((word) => word && counts.has(word)).map((word) => [word, counts.get(word)]);
}

// A row of buttons that are pressed or not, for the words of a filter. Arrow keys go from one to the next. The rows of
// standings, severities and kinds are the counts of the page too.
function showChoices(name, title) {
  const buttons = countedWords(name).map(([word, count]) => {
    const attributes = { type: 'button', class: name === 'package' ? '' : word, tabindex: -1, 'aria-pressed': false };
    const button = make('button', attributes, make('small', {}, number(count)), ' ' + word);
    button.show = () => button.setAttribute('aria-pressed', view[name].has(word));
    on(button, 'click', () => {
      const words = new Set(view[name]);
      if (!words.delete(word)) words.add(word);
      change({ [name]: words });
    });
    return button;
  });
  const row = make('span', { class: 'choices' }, ...buttons);
  if (!buttons.length) return;
  buttons[0].tabIndex = 0;
  if (name === 'package' && buttons.length > PACKAGES) {
    const more = make('button', { type: 'button', tabindex: -1 }, number(buttons.length - PACKAGES) + ' more');
    on(more, 'click', () => {
      more.remove();
      row.classList.remove('few');
      focusOn(buttons[PACKAGES], row);
    });
    row.append(more);
    row.classList.add('few');
  }
  const seen = () => [...row.children].filter((one) => one.offsetParent);
  on(row, 'keydown', (event) => moveFocus(event, row, seen(), ['ArrowLeft', 'ArrowRight']));
  const toolbar = make('div', { class: 'row', id: name, role: 'toolbar', 'aria-label': title }, row);
  if (name === 'attribute' || name === 'package') {
    toolbar.prepend(make('span', { class: 'name' }, title));
    find('more').append(toolbar);
  } else {
    find('search').before(toolbar);
  }
}

function makeFilters() {
  const titles = { standing: 'Standing', severity: 'Severity', kind: 'Kind', attribute: 'Attribute', package: 'Package' };
  for (const [name, title] of Object.entries(titles)) showChoices(name, title);
  for (const order of Object.keys(KEYS)) {
    find('order').append(make('option', { value: order }, ORDERS[order] || order));
  }
}

// The view of an address; a directory that has no entries is left out of it.
function showView(text) {
  view = viewOf(text);
  if (view.directory && !nodeAt(view.directory)) view.directory = '';
  find('search').value = view.path;
  if (view.attribute.size || view.package.size) find('more').open = true;
  change({ page: view.page });
}

function listen() {
  let timer = 0;
  on(find('search'), 'input', (event) => {
    clearTimeout(timer);
    timer = setTimeout(() => change({ path: event.target.value }), 100);
  });
  on(find('clear'), 'click', () => {
    showView('order=' + view.order + '&values=' + view.values);
    find('search').focus();
  });
  on(find('order'), 'change', () => change({ order: find('order').value }, false));
  on(find('unfold'), 'click', () => change({ page: view.page, values: view.values ? '' : 'shown' }, false));
  on(find('previous'), 'click', () => turn(-1));
  on(find('next'), 'click', () => turn(1));
  on(find('print'), 'click', () => window.print());
  on(find('tree'), 'keydown', treeKey);
  on(find('tree'), 'click', ({ target }) => {
    const item = target.closest('[role="treeitem"]');
    if (item) (target.classList.contains('fold') ? toggle : choose)(item);
  });
  on(document, 'click', (event) => {
    if (!event.target.matches('[href="#content"]')) return;
    event.preventDefault();
    find('content').focus();
  });
  on(window, 'hashchange', () => {
    const text = location.hash.slice(1);
    if (text !== 'content' && text !== written) showView(text);
  });
  on(window, 'beforeprint', () => {
    for (const about of document.querySelectorAll('.about')) about.open = true;
    showItems(0, matching.length);
  });
  on(window, 'afterprint', showList);
}

function begin() {
  const data = JSON.parse(find('data').textContent);
  heading = data.heading;
  showHeading(heading);
  for (const row of data.rows) entries.push(entryOf(row));
  find('data').remove();
  if (entries.length) {
    placeByImportance();
    entries.sort((one, two) => one.key < two.key ? -1 : 1);
    inOrder.set('path', entries);
    placeEntries(entries);
    makeFilters();
    const text = location.hash.slice(1) || (entries.length <= FEW ? 'values=shown' : '');
    view = viewOf(text);
    filter();
    for (let first = shownChildren(root); first.length === 1 && first[0].node.below && opened.size < DEEP;
      first = shownChildren(first[0].node)) opened.add(first[0].node);
    showView(text);
    listen();
    find('view').hidden = false;
  }
  find('digest').remove();
}

// What is there without a script waits unseen until all is made. If something goes wrong then, it is there.
document.documentElement.className = 'waiting';
on(document, 'DOMContentLoaded', () => {
  try {
    begin();
  } finally {
    document.documentElement.className = '';
  }
});
