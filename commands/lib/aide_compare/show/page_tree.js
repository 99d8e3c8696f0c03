// The tree of directories: how many entries each has, how it is shown, and how keys move in it.
// So many nested directories are open at first: very deep elements are too much for some browsers.
const CHILDREN = 200, DEEP = 20, KINDS = choices.kind, SIGNS = ['+', '\u2212', '~'];
const nodeOf = (path, name, parent) => ({ path, name, parent, children: new Map(), counts: [0, 0, 0], direct: 0, below: 0 });
// The directories; each comes after the one that it is in. An entry that is itself a directory belongs to its node.
const root = nodeOf('', '', null), nodes = [root], opened = new Set([root]);
const total = ({ counts }) => counts[0] + counts[1] + counts[2];

function childOf(parent, name) {
  if (!parent.children.has(name)) {
    nodes.push(nodeOf(parent.path + '/' + name, name, parent));
    parent.children.set(name, nodes[nodes.length - 1]);
  }
  return parent.children.get(name);
}

// The node of a directory; undefined if no entry is in it.
const nodeAt = (path) => path.split('/').slice(1).reduce((node, name) => node && node.children.get(name), root);

function placeEntries(entries) {
  let node = root;
  for (const entry of entries) {
    const cut = entry.path.lastIndexOf('/'), folder = entry.path.slice(0, cut);
    if (folder !== node.path) node = folder.split('/').slice(1).reduce(childOf, root);
    entry.node = node;
  }
  for (const entry of entries) {
    const { node, path } = entry;
    if (node.children.size) entry.node = node.children.get(path.slice(path.lastIndexOf('/') + 1)) || node;
  }
}

// Counts some entries, directory by directory.
function countNodes(entries) {
  for (const node of nodes) Object.assign(node, { counts: [0, 0, 0], direct: 0, below: 0 });
  for (const { node, kind } of entries) {
    node.counts[KINDS.indexOf(kind)] += 1;
    node.direct += 1;
  }
  for (const node of nodes.slice(1).reverse()) {
    node.counts.forEach((count, kind) => { node.parent.counts[kind] += count; });
    if (total(node)) node.parent.below += 1;
  }
}

// Directories that hold nothing but one directory are shown together with it.
function shownChildren(node) {
  return [...node.children.values()].filter(total).map((child) => {
    let last = child, name = child.name + '/';
    while (!last.direct && last.below === 1) {
      last = [...last.children.values()].find(total);
      name += last.name + '/';
    }
    return { node: last, name };
  });
}

const treeItem = (label, row) => make('li', { role: 'treeitem', 'aria-label': label, tabindex: -1 }, row);
const isChosen = (node) => view.directory !== '' && node.path === view.directory;

function folderItem({ node, name }, whole, waiting) {
  const all = KINDS.map((word, kind) => ({ word, sign: SIGNS[kind], count: node.counts[kind] }));
  const kinds = all.filter(({ count }) => count);
  const numbers = kinds.flatMap(({ word, sign, count }) => [make('span', { class: word }, sign + number(count)), ' ']);
  const parts = kinds.map(({ word }) => make('span', { class: word }));
  kinds.forEach(({ count }, place) => { parts[place].style.width = 100 * count / whole + '%'; });
  const row = make('div', { class: 'folder' }, make('span', { class: node.below ? 'fold' : '' }), make('code', {}, name),
    make('span', { class: 'bar', 'aria-hidden': 'true' }, ...parts), make('span', { class: 'numbers' }, ...numbers));
  const item = treeItem(name + ', ' + kinds.map(({ word, count }) => number(count) + ' ' + word).join(', '), row);
  item.node = node;
  if (node.below) {
    const list = make('ul', { role: 'group' });
    item.append(list);
    item.setAttribute('aria-expanded', opened.has(node));
    if (opened.has(node)) waiting.push([list, node, 0]);
  }
  return item;
}

// Folders that are open are filled one after another: a call within a call could go too deep.
function fill(...first) {
  const waiting = [first];
  while (waiting.length) {
    const [list, node, from = 0] = waiting.pop(), children = shownChildren(node), left = children.length - from - CHILDREN;
    list.append(...children.slice(from, from + CHILDREN).map((child) => folderItem(child, total(node), waiting)));
    if (left > 0) {
      const words = number(left) + ' more directories', more = treeItem(words, make('div', { class: 'folder more' }, words));
      more.more = () => {
        more.remove();
        fill(list, node, from + CHILDREN);
      };
      list.append(more);
    }
  }
  showChosen();
}

function toggle(item) {
  const { node } = item, list = item.lastElementChild;
  if (!item.hasAttribute('aria-expanded')) return;
  if (!opened.delete(node)) opened.add(node);
  item.setAttribute('aria-expanded', opened.has(node));
  if (opened.has(node) && !list.firstChild) fill(list, node);
}

function choose(item) {
  if (item.more) {
    const next = item.previousElementSibling;
    item.more();
    focusOn(next);
  } else {
    change({ directory: isChosen(item.node) ? '' : item.node.path }, false);
  }
}

const treeItems = () => [...find('tree').querySelectorAll('[role="treeitem"]')];

function showTree() {
  const had = find('tree').contains(document.activeElement) && document.activeElement.node;
  find('tree').replaceChildren();
  fill(find('tree'), root);
  const [first] = treeItems(), item = had && treeItems().find(({ node }) => node === had);
  if (item) focusOn(item);
  else if (first) first.tabIndex = 0;
}

function showChosen() {
  for (const item of treeItems()) if (item.node) item.setAttribute('aria-selected', isChosen(item.node));
}

// One element of the tree, or of a row of buttons, is reached by the tabulator: the one that had the focus last.
function focusOn(item, container = find('tree')) {
  if (!item) return;
  for (const other of container.querySelectorAll('[tabindex="0"]')) other.tabIndex = -1;
  item.tabIndex = 0;
  item.focus();
}

// Keys go from one element to the next; `more` has what other keys do.
function moveFocus(event, container, items, [before, after], more = {}) {
  const place = items.indexOf(document.activeElement);
  const to = { [before]: items[place - 1], [after]: items[place + 1], Home: items[0], End: items[items.length - 1] };
  const act = more[event.key] || (to[event.key] && (() => focusOn(to[event.key], container)));
  if (!act || event.altKey || event.ctrlKey || event.metaKey) return;
  event.preventDefault();
  act();
}

function treeKey(event) {
  const item = event.target.closest('[role="treeitem"]');
  if (!item) return;
  const items = treeItems().filter((one) => !one.parentElement.closest('[aria-expanded="false"]'));
  const isOpen = item.getAttribute('aria-expanded'), act = () => choose(item);
  moveFocus(event, find('tree'), items, ['ArrowUp', 'ArrowDown'], {
    ArrowRight: () => isOpen === 'false' ? toggle(item) : isOpen && focusOn(items[items.indexOf(item) + 1]),
    ArrowLeft: () => isOpen === 'true' ? toggle(item) : focusOn(item.parentElement.closest('[role="treeitem"]')),
    Enter: act, ' ': act,
  });
}
