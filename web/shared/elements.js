// Elements of a page. Every value of a reply becomes text of an element, never markup.

const nodeOf = (child) => (child instanceof Node ? child : document.createTextNode(child));

// An element with attributes and children, of which texts become text.
export function element(tag, attributes = {}, ...children) {
  const made = document.createElement(tag);
  for (const [name, value] of Object.entries(attributes)) made.setAttribute(name, value);
  made.append(...children.map(nodeOf));
  return made;
}

// A text that somebody wrote, in whichever direction its script is read.
export const freeText = (text, tag = "span") => element(tag, { dir: "auto" }, text);

export function button(text, action, attributes = {}) {
  const made = element("button", { type: "button", ...attributes }, text);
  made.addEventListener("click", action);
  return made;
}

export const at = (id) => document.getElementById(id);
export const byId = (rows) => new Map(rows.map((row) => [row.id, row]));

// What names an element among those beside it, or null: the id of its row, or what a choice stands for.
const nameOf = (node) => node.dataset?.id ?? (node.localName === "option" ? node.value : null);

// Whether two are elements of one kind with equal attributes, whatever they hold.
function hasEqualFrame(one, other) {
  return one.nodeType === Node.ELEMENT_NODE && one.cloneNode(false).isEqualNode(other.cloneNode(false));
}

// What is to stand in the place of an element or a text: itself, if it can become what is wanted.
function settled(there, wanted) {
  if (there === undefined || there.isEqualNode(wanted)) return there ?? wanted;
  if (!hasEqualFrame(there, wanted)) return wanted;
  fill(there, [...wanted.childNodes]);
  return there;
}

// Puts elements and texts in the place of what an element held. What is equal stays, and with it the focus, what is
// chosen and how far it is scrolled. It keeps what its buttons do too, so that goes by ids.
export function fill(place, children) {
  const there = [...place.childNodes];
  const named = new Map(there.filter((one) => nameOf(one) !== null).map((one) => [nameOf(one), one]));
  const others = there.filter((one) => nameOf(one) === null);
  const nodes = children.map(nodeOf).map((wanted) => {
    const name = nameOf(wanted);
    return settled(name === null ? others.shift() : named.get(name), wanted);
  });
  const staying = new Set(nodes);
  for (const one of there) if (!staying.has(one)) one.remove();
  let next = place.firstChild;
  for (const node of nodes) {
    if (node === next) next = next.nextSibling;
    else place.insertBefore(node, next);
  }
}
