"""What runs before each script of a test, so that the text which a page shows is the same in all browsers.

Firefox leaves marks of direction out of it, and Firefox and WebKit what a list to choose from has. No page of web/ asks for that
text, so only the tests are told. Each text that has marks stands in the place of what was left of it; of one that is nothing but
marks, nothing was left, so what holds it stands there with the texts beside it.
"""

WHOLE_TEXT = """if (!("plainText" in HTMLElement.prototype)) {
  const marks = /[\\u061c\\u200e\\u200f\\u202a-\\u202e\\u2066-\\u2069]/g;
  const plain = Object.getOwnPropertyDescriptor(HTMLElement.prototype, "innerText");
  const withMarks = (text, element) => {
    const walker = document.createTreeWalker(element, NodeFilter.SHOW_TEXT);
    let from = 0, last = null;
    while (walker.nextNode()) {
      let whole = walker.currentNode;
      if (!whole.data.match(marks) || last?.contains(whole)) continue;
      while (whole !== element && whole.textContent.replace(marks, "").trim() === "") whole = whole.parentNode;
      const data = whole.textContent.trim(), bare = data.replace(marks, "");
      const at = text.includes(data, from) ? -1 : text.indexOf(bare, from);
      if (at < 0) continue;
      text = text.slice(0, at) + data + text.slice(at + bare.length);
      from = at + data.length;
      last = whole;
    }
    return text;
  };
  const whole = (element) => {
    if (element.localName === "select") return [...element.options].map((one) => one.text).join("\\n");
    const text = plain.get.call(element);
    return element.textContent.match(marks) ? withMarks(text, element) : text;
  };
  Object.defineProperty(HTMLElement.prototype, "plainText", plain);
  Object.defineProperty(HTMLElement.prototype, "innerText", { ...plain, get() { return whole(this); } });
}
"""
