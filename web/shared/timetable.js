// What the pages ask a desk for, and every how many seconds. Lists of all submissions and judgements are long, so they
// are asked for seldom; after a post of its own a page asks for what that changed at once. A team's page asks sooner
// while a submission of its own waits for a verdict, or once its row on the board has changed. The page of the
// scoreboard asks for these lists only where the board doesn't tell who was first (first_finder.js). A path that begins
// with `/` goes on behind the contest's. What is between the outer brackets is JSON too: bench/day asks for the same.

export const TIMETABLE = {
  "team": [
    { "seconds": 5, "paths": ["", "/scoreboard", "/clarifications"] },
    { "seconds": 120, "sooner": 30, "paths": ["/submissions", "/judgements", "/awards"] }
  ],
  "jury": [
    { "seconds": 3, "paths": ["", "/state", "/scoreboard", "/clarifications", "/awards", "jury/proposals",
      "jury/rejudgings"] },
    { "seconds": 30, "paths": ["/submissions", "/judgements"] }
  ],
  "balloons": [
    { "seconds": 5, "paths": ["", "/scoreboard"] },
    { "seconds": 30, "paths": ["/judgement-types", "/problems", "/groups", "/teams", "/submissions", "/judgements"] }
  ],
  "scoreboard": [
    { "seconds": 5, "paths": ["", "/scoreboard", "/problems", "/teams", "/awards", "/groups"] }
  ]
};
