//! What a GET of the scoreboard comes to, as a plain Rust program: std alone, nothing proved. It is the
//! measure that bench/board holds the proved program against, in one run and of the same rows.
//!
//! `plain_board ROWS N` reads rows of submissions (team, problem, milliseconds since the start, verdict)
//! and counts the cells of the public board, as the desk has them in memory. Then it sorts the teams and
//! writes the board as JSON, N times, and prints the median seconds of one. The bytes go to ROWS.json.

use std::collections::HashMap;
use std::fmt::Write as _;
use std::time::Instant;

const TEAMS: usize = 500;
const PENALTY_MINUTES: u64 = 20;
const FREEZE: u64 = 14_400_000;

struct Submission {
    team: usize,
    number: usize,
    problem: usize,
    time: u64,
}

struct Release {
    team: usize,
    number: usize,
    verdict: u8,
}

#[derive(Clone, Copy, Default)]
struct Cell {
    judged: u32,
    pending: u32,
    solved: Option<u64>,
    penalties: u64,
}

struct Row {
    team: usize,
    solved: u32,
    total: u64,
    last: Option<u64>,
}

// The judgement types of the rows: 0 solves, 1 is penalised.
fn count(cell: &mut Cell, time: u64, verdict: Option<u8>) {
    if cell.solved.is_some() {
        return;
    }
    match verdict {
        None => cell.pending += 1,
        Some(verdict) => {
            cell.judged += 1;
            if verdict == 0 {
                cell.solved = Some(time / 60_000);
            }
            cell.penalties += u64::from(verdict == 1);
        }
    }
}

fn cells(submissions: &[Submission], releases: &[Release], problems: usize) -> Vec<Cell> {
    let mut last = HashMap::new();
    for release in releases {
        last.insert((release.team, release.number), release.verdict);
    }
    let mut cells = vec![Cell::default(); TEAMS * problems];
    for submission in submissions {
        let verdict = last.get(&(submission.team, submission.number)).copied();
        let seen = verdict.filter(|_| submission.time < FREEZE);
        let cell = &mut cells[submission.team * problems + submission.problem];
        count(cell, submission.time, seen);
    }
    cells
}

fn rows(cells: &[Cell], problems: usize) -> Vec<Row> {
    let mut rows: Vec<Row> = (0..TEAMS)
        .map(|team| {
            let mut row = Row { team, solved: 0, total: 0, last: None };
            for cell in &cells[team * problems..(team + 1) * problems] {
                if let Some(minute) = cell.solved {
                    row.solved += 1;
                    row.total += minute + PENALTY_MINUTES * cell.penalties;
                    row.last = row.last.max(Some(minute));
                }
            }
            row
        })
        .collect();
    rows.sort_by_key(|row| (u32::MAX - row.solved, row.total, row.last.unwrap_or(0), format!("Team {}", row.team + 1)));
    rows
}

fn json(cells: &[Cell], problems: &[String], head: &str, tail: &str) -> String {
    let rows = rows(cells, problems.len());
    let mut text = String::from(head);
    let mut rank = 0;
    for (place, row) in rows.iter().enumerate() {
        let above = place.checked_sub(1).map(|above| &rows[above]);
        if !above.is_some_and(|above| (above.solved, above.total, above.last) == (row.solved, row.total, row.last)) {
            rank = place + 1;
        }
        text.push_str(if place == 0 { "{\"problems\":[" } else { ",{\"problems\":[" });
        for (problem, id) in problems.iter().enumerate() {
            let cell = &cells[row.team * problems.len() + problem];
            let comma = if problem == 0 { "" } else { "," };
            write!(text, "{comma}{{\"num_judged\":{},\"num_pending\":{},\"problem_id\":\"{id}\",\"solved\":{}", cell.judged, cell.pending, cell.solved.is_some()).unwrap();
            match cell.solved {
                Some(minute) => write!(text, ",\"time\":{minute}}}").unwrap(),
                None => text.push('}'),
            }
        }
        let last = row.last.map_or("null".to_string(), |minute| minute.to_string());
        write!(text, "],\"rank\":{rank},\"score\":{{\"num_solved\":{},\"time\":{last},\"total_time\":{}}},\"team_id\":\"t{}\"}}", row.solved, row.total, row.team + 1).unwrap();
    }
    text.push_str(tail);
    text
}

fn main() {
    let words: Vec<String> = std::env::args().collect();
    let text = std::fs::read_to_string(&words[1]).unwrap();
    let mut lines = text.lines();
    let problems: Vec<String> = lines.next().unwrap().split(' ').map(str::to_string).collect();
    let (head, tail) = (lines.next().unwrap(), lines.next().unwrap());
    let mut numbers = vec![0; TEAMS];
    let (mut submissions, mut releases) = (Vec::new(), Vec::new());
    for line in lines {
        let fields: Vec<u64> = line.split(' ').map(|field| field.parse().unwrap()).collect();
        let team = fields[0] as usize;
        numbers[team] += 1;
        let number = numbers[team];
        submissions.push(Submission { team, number, problem: fields[1] as usize, time: fields[2] });
        if fields[3] < 3 {
            releases.push(Release { team, number, verdict: fields[3] as u8 });
        }
    }
    let cells = cells(&submissions, &releases, problems.len());
    let mut times = Vec::new();
    let mut board = String::new();
    for _ in 0..words[2].parse().unwrap() {
        let start = Instant::now();
        board = json(&cells, &problems, head, tail);
        times.push(start.elapsed().as_secs_f64());
    }
    std::fs::write(format!("{}.json", words[1]), board).unwrap();
    times.sort_by(f64::total_cmp);
    println!("{}", times[times.len() / 2]);
}
