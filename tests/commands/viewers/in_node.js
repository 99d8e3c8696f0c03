// Runs the script of a page over as much of a document as it needs, and prints what it shows as JSON: the heading, and of each
// entry its section, its words, its path, its facts and the rows of its tables.
const fs = require('fs');

class Element {
  constructor(tag) {
    Object.assign(this, { tagName: tag.toUpperCase(), attributes: {}, childNodes: [], parent: null, style: {}, dataset: {}, handlers: {} });
    this.classList = { contains: (name) => this.className.split(' ').includes(name), add() {}, remove() {} };
  }
  get className() { return this.attributes.class || ''; }
  set className(text) { this.attributes.class = text; }
  get children() { return this.childNodes.filter((node) => node instanceof Element); }
  get textContent() { return this.childNodes.map((node) => node instanceof Element ? node.textContent : node).join(''); }
  set textContent(text) { this.childNodes = [String(text)]; }
  setAttribute(name, value) { this.attributes[name] = String(value); }
  getAttribute(name) { return name in this.attributes ? this.attributes[name] : null; }
  hasAttribute(name) { return name in this.attributes; }
  append(...nodes) { for (const node of nodes) { if (node instanceof Element) node.parent = this; this.childNodes.push(node); } }
  prepend(...nodes) { this.childNodes.unshift(...nodes); }
  before() {}
  replaceChildren(...nodes) { this.childNodes = []; this.append(...nodes); }
  remove() { if (this.parent) this.parent.childNodes = this.parent.childNodes.filter((node) => node !== this); }
  addEventListener(event, act) { this.handlers[event] = act; }
  contains() { return false; }
  closest() { return null; }
  focus() {}
  get firstChild() { return this.childNodes[0]; }
  get lastElementChild() { return this.children[this.children.length - 1]; }
  all() { return this.children.flatMap((child) => [child, ...child.all()]); }
  querySelectorAll(selector) {
    return this.all().filter((node) => /^\w+$/.test(selector) ? node.tagName === selector.toUpperCase()
      : selector.startsWith('.') ? node.classList.contains(selector.slice(1)) : false);
  }
  querySelector(selector) { return this.querySelectorAll(selector)[0] || null; }
}

const text = fs.readFileSync(process.argv[2], 'utf-8'), known = new Map(), handlers = {};
const root = new Element('html');
const document = {
  documentElement: root,
  createElement: (tag) => new Element(tag),
  getElementById(id) {
    if (!known.has(id)) { known.set(id, new Element('div')); root.append(known.get(id)); }
    return known.get(id);
  },
  addEventListener: (event, act) => { handlers[event] = act; },
  querySelector: (selector) => root.querySelector(selector),
  querySelectorAll: (selector) => root.querySelectorAll(selector),
  activeElement: null,
};
const window = { addEventListener: (event, act) => { handlers[event] = act; } };
const location = { hash: '#order=importance&values=shown', replace() {} };
document.getElementById('data').textContent = text.split('<script id="data" type="application/json">')[1].split('</script>')[0];
const script = text.split('<script>')[1].split('</script>')[0];
new Function('document', 'window', 'location', script)(document, window, location);
handlers.DOMContentLoaded();
if (handlers.beforeprint) handlers.beforeprint();

let section = '';
const entries = [];
for (const item of document.getElementById('list').children) {
  if (item.className === 'section') {
    section = item.textContent;
  } else {
    const rows = item.querySelectorAll('tr').slice(1).filter((row) => row.children[0].attributes.scope === 'row');
    const exact = (cell) => cell.className === 'none' ? null : cell.querySelector('details') ? cell.children[0].childNodes[1] : cell.textContent;
    entries.push({
      section, words: item.querySelector('b').textContent, path: item.querySelector('code').textContent,
      about: item.querySelector('i').textContent.trim(), reasons: item.querySelectorAll('.reason').map((one) => one.textContent),
      rows: rows.map((row) => [row.children[0].textContent, ...row.children.slice(1).map(exact)]),
      shown: rows.map((row) => row.children.slice(1).map((cell) => cell.textContent)),
    });
  }
}
const header = document.getElementById('header'), tags = [...new Set([header, document.getElementById('list')].flatMap(
  (part) => part.all().map((node) => node.tagName.toLowerCase())))];
console.log(JSON.stringify({ header: header.all().map((node) => node.textContent), entries, tags, digest: root.children.includes(known.get('digest')) }));
