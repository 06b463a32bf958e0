// The head of a page stays where it is while a long board goes by, and the head of the board below it. So styles need
// to know how high it is: `--top` (desk.css).

export function followHeadHeight() {
  const header = document.querySelector("header");
  const showHeight = () => document.documentElement.style.setProperty("--top", `${header.offsetHeight}px`);
  new ResizeObserver(showHeight).observe(header);
}
