// In a hall nobody scrolls: `scoreboard.html#hall` goes down a long board by itself, and then up again.

const SECONDS = 8;

function goDown() {
  if (location.hash !== "#hall") return;
  const isAtEnd = scrollY + innerHeight >= document.documentElement.scrollHeight - 2;
  const page = (innerHeight - document.querySelector("header").offsetHeight) * 0.8;
  scrollTo({ top: isAtEnd ? 0 : scrollY + page, behavior: "smooth" });
}

export function beginGoingDown() {
  setInterval(goDown, SECONDS * 1000);
}
