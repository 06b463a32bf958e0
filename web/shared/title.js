// The title of a page, in the tab: how much is new, and the contest's name. A page has one, and those who name it and
// who count know nothing of each other: so it is kept here, and handed to nobody.

let name = document.title;
let news = 0;

function show() {
  const title = news > 0 ? `(${news}) ${name}` : name;
  if (document.title !== title) document.title = title;
}

export function nameTitle(text) {
  name = text;
  show();
}

export function countTitle(count) {
  news = count;
  show();
}
