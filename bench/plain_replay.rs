//! What `desk replay` does, as a plain Rust program: std alone, nothing proved. It is the measure that
//! bench/replay holds the proved program against, in one run and on the same file.
//!
//! It takes files without a fault and without quotation marks, in ASCII, and prints the public board.
//! It checks nothing, so it does less work than `desk`.

use std::cmp::Reverse;
use std::collections::HashMap;
use std::fmt::Write as _;
use std::io::{Read, Write};

const PENALTY_MINUTES: u64 = 20;

struct Problem<'a> {
    ordinal: u32,
    id: &'a str,
    label: &'a str,
}

struct Team<'a> {
    id: &'a str,
    name: &'a str,
    hidden: bool,
    last_submission: u64,
}

struct Attempt<'a> {
    team: usize,
    problem: usize,
    time: u64,
    verdict: &'a str,
}

#[derive(Clone, Copy)]
struct JudgementType {
    solved: bool,
    penalty: bool,
}

#[derive(Default)]
struct Contest<'a> {
    name: &'a str,
    duration: u64,
    freeze: Option<u64>,
    types: HashMap<&'a str, JudgementType>,
    problems: Vec<Problem<'a>>,
    problem_places: HashMap<&'a str, usize>,
    teams: Vec<Team<'a>>,
    team_places: HashMap<&'a str, usize>,
    attempts: Vec<Attempt<'a>>,
}

/// The milliseconds of `h:mm:ss` or `h:mm:ss.uuu`.
fn milliseconds(text: &str) -> u64 {
    let mut parts = text.splitn(3, ':');
    let hours: u64 = parts.next().unwrap().parse().unwrap();
    let minutes: u64 = parts.next().unwrap().parse().unwrap();
    let (seconds, millis) = match parts.next().unwrap().split_once('.') {
        Some((seconds, millis)) => (seconds.parse::<u64>().unwrap(), millis.parse().unwrap()),
        None => (text[text.len() - 2..].parse().unwrap(), 0),
    };
    (hours * 3600 + minutes * 60 + seconds) * 1000 + millis
}

impl<'a> Contest<'a> {
    fn read(text: &'a str) -> Self {
        let mut contest = Contest::default();
        for line in text.lines().skip(1) {
            let mut fields = line.split(',');
            let mut field = || fields.next().unwrap();
            contest.take([field(), field(), field(), field(), field()]);
        }
        contest
    }

    fn take(&mut self, fields: [&'a str; 5]) {
        let [kind, id, first, second, third] = fields;
        match kind {
            "contest" => {
                self.name = first;
                self.duration = milliseconds(second);
                self.freeze = (!third.is_empty()).then(|| self.duration - milliseconds(third));
            }
            "type" => {
                let solved = second == "true";
                let penalty = third == "true";
                self.types.insert(id, JudgementType { solved, penalty });
            }
            "problem" => {
                self.problem_places.insert(id, self.problems.len());
                let ordinal = third.parse().unwrap();
                self.problems.push(Problem {
                    ordinal,
                    id,
                    label: first,
                });
            }
            "team" => {
                self.team_places.insert(id, self.teams.len());
                let hidden = second == "true";
                self.teams.push(Team {
                    id,
                    name: first,
                    hidden,
                    last_submission: 0,
                });
            }
            _ => self.submit(
                self.team_places[id],
                self.problem_places[first],
                milliseconds(second),
                third,
            ),
        }
    }

    fn submit(&mut self, team: usize, problem: usize, time: u64, verdict: &'a str) {
        let last = &mut self.teams[team].last_submission;
        *last = time.max(*last);
        self.attempts.push(Attempt {
            team,
            problem,
            time: *last,
            verdict,
        });
    }
}

#[derive(Clone, Copy, Default)]
struct Cell {
    judged: u32,
    pending: u32,
    solved: Option<u64>,
    penalties: u32,
}

impl Cell {
    fn count(&mut self, time: u64, verdict: Option<JudgementType>) {
        if self.solved.is_some() {
            return;
        }
        let Some(verdict) = verdict else {
            self.pending += 1;
            return;
        };
        self.judged += 1;
        if verdict.solved {
            self.solved = Some(time / 60_000);
        } else if verdict.penalty {
            self.penalties += 1;
        }
    }

    fn write(&self, text: &mut String) {
        text.clear();
        match self.solved {
            Some(minute) => write!(text, "+{}/{minute}", self.judged).unwrap(),
            None if self.judged > 0 => write!(text, "-{}", self.judged).unwrap(),
            None => {}
        }
        if self.pending > 0 {
            write!(text, "?{}", self.pending).unwrap();
        }
        if text.is_empty() {
            text.push('.');
        }
    }
}

/// One cell for each team and problem, a team's cells side by side, as the public sees them.
fn cells_of(contest: &Contest) -> Vec<Cell> {
    let mut cells = vec![Cell::default(); contest.teams.len() * contest.problems.len()];
    for attempt in &contest.attempts {
        let frozen = contest.freeze.is_some_and(|freeze| attempt.time >= freeze);
        let seen = if frozen || attempt.verdict.is_empty() {
            None
        } else {
            Some(contest.types[attempt.verdict])
        };
        cells[attempt.team * contest.problems.len() + attempt.problem].count(attempt.time, seen);
    }
    cells
}

/// A team's row, its fields in the order that rows are compared by.
#[derive(PartialEq, Eq, PartialOrd, Ord)]
struct Row<'a> {
    score: (Reverse<u64>, u64, u64),
    name: &'a str,
    id: &'a str,
    team: usize,
}

fn rows_of<'a>(contest: &Contest<'a>, cells: &[Cell]) -> Vec<Row<'a>> {
    let width = contest.problems.len();
    let shown = contest
        .teams
        .iter()
        .enumerate()
        .filter(|(_, team)| !team.hidden);
    let mut rows: Vec<Row> = shown
        .map(|(place, team)| {
            let (mut solved, mut total, mut last) = (0, 0, 0);
            for cell in &cells[place * width..(place + 1) * width] {
                if let Some(minute) = cell.solved {
                    solved += 1;
                    total += minute + PENALTY_MINUTES * u64::from(cell.penalties);
                    last = last.max(minute);
                }
            }
            Row {
                score: (Reverse(solved), total, last),
                name: team.name,
                id: team.id,
                team: place,
            }
        })
        .collect();
    rows.sort_unstable();
    rows
}

/// The name, and the line that tells the moment.
fn write_top(contest: &Contest, out: &mut String) {
    let end = contest.duration;
    let (hours, minutes) = (end / 3_600_000, end / 60_000 % 60);
    let (seconds, millis) = (end / 1000 % 60, end % 1000);
    let word = if contest.freeze.is_some() {
        "frozen"
    } else {
        "ended"
    };
    writeln!(out, "{}", contest.name).unwrap();
    write!(out, "Public board, contest time ").unwrap();
    writeln!(out, "{hours}:{minutes:02}:{seconds:02}.{millis:03}, {word}").unwrap();
}

/// The heading and the rows, for problems in this order.
fn write_table(contest: &Contest, order: &[usize], out: &mut String) {
    let cells = cells_of(contest);
    let rows = rows_of(contest, &cells);
    let widest = rows.iter().map(|row| row.name.len()).max();
    let names = widest.unwrap_or(0).max(4);
    write!(out, "Rank  {:<names$}  Solved    Time", "Team").unwrap();
    for &problem in order {
        write!(out, "  {:>9}", contest.problems[problem].label).unwrap();
    }
    out.push('\n');
    let (mut rank, mut text) = (0, String::new());
    for (place, row) in rows.iter().enumerate() {
        if place == 0 || row.score != rows[place - 1].score {
            rank = place + 1;
        }
        let (Reverse(solved), total, _) = row.score;
        write!(
            out,
            "{rank:>4}  {:<names$}  {solved:>6}  {total:>6}",
            row.name
        )
        .unwrap();
        for &problem in order {
            cells[row.team * contest.problems.len() + problem].write(&mut text);
            write!(out, "  {text:>9}").unwrap();
        }
        out.push('\n');
    }
}

/// The board at the contest's end.
fn board(contest: &Contest) -> String {
    let problems = &contest.problems;
    let mut order: Vec<usize> = (0..problems.len()).collect();
    order.sort_by_key(|&place| (problems[place].ordinal, problems[place].id));
    let mut out = String::new();
    write_top(contest, &mut out);
    write_table(contest, &order, &mut out);
    out
}

fn main() {
    let mut text = String::new();
    std::io::stdin().read_to_string(&mut text).unwrap();
    let contest = Contest::read(&text);
    std::io::stdout()
        .write_all(board(&contest).as_bytes())
        .unwrap();
}
