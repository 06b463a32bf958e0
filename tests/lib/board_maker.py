"""Scoreboards of another system, made from a seed: those of a contest, with what differs there."""

import json

from .chance import Chance
from .replay_files import reltime
from .replay_opinion import board_rows, columns_of

# What stands in the place of a board, of a row, of its score or of a cell, and is none.
BAD_BOARDS = [b"", b"x", b"{", b"[]", b"null", b"{}", b'{"rows":null}', b'{"rows":7}', b'{"rows":{}}', b'{"rows":[7]}', b'{"rows":[null]}',
              b'{"rows":[[]]}', b'{"rows":[]}{}', b'\xef\xbb\xbf{"rows":[]}', b'{"rows":[],"x":"\xff"}', b'{"rows":[],"x":"\\ud800"}',
              b'{"rows":[],"x":1e999}']  # fmt: skip
NUMBERS, TIMES = [None, -1, 1.5, 1.0, "1", True, [], 2**32, 10**20], [-1, 1.5, True, [], {}, 2**32, "", "20", "0:20", "-0:00:01", "0:60:00", "x"]
BAD_ROWS = {"rank": NUMBERS, "team_id": [None, 7, "", "-a", "a" * 37, []], "score": [None, 7, [], "x"], "problems": [7, {}, "x", [7], [[]], [None]]}
BAD_SCORES = {"num_solved": NUMBERS, "total_time": [None, *TIMES]}
BAD_CELLS = {"problem_id": [None, 7, "", "-a"], "solved": [0, 1, "true", []], "num_judged": NUMBERS[1:], "num_pending": NUMBERS[1:], "time": TIMES}


class BoardMaker(Chance):
    """A scoreboard, as one version of the Contest API or another writes it."""

    def maybe(self, part):
        return self.random.random() < part

    def minutes(self, minutes):
        """A number, or a RELTIME of which the seconds are cut off."""
        return minutes if self.maybe(0.5) else reltime(self.random, minutes * 60_000 + self.one([0, 0, 1, 59_999]))

    def cell(self, problem, cell):
        row = {"problem_id": problem, "num_judged": cell.judged, "num_pending": cell.pending, "solved": cell.solved is not None}
        row = {name: value for name, value in row.items() if value not in (0, False) or self.maybe(0.8)}
        return {**row, **({"time": self.minutes(cell.solved), "first_to_solve": False} if cell.solved is not None else {})}

    def row(self, row, columns):
        cells = [self.cell(problem, cell) for problem, cell in zip(columns, row.cells)]
        cells = [cell for cell in cells if set(cell.values()) - {0, False, cell["problem_id"]} or self.maybe(0.7)]
        score = {"num_solved": row.solved, "total_time": self.minutes(row.total), "time": None}
        made = {"rank": row.rank, "team_id": row.team, "score": score}
        return {**made, "problems": cells} if cells or self.maybe(0.7) else made

    def rows(self, contest, shown):
        columns = columns_of(contest)
        return [self.row(row, columns) for row in board_rows(contest, shown, columns)]

    def change(self, rows):
        """The rows with a difference, at times with none."""
        row = self.one(rows) if rows else None
        cells = row.setdefault("problems", []) if row else []
        other = {"rank": self.random.randint(1, 9), "team_id": self.one(["other", "t1", "a"]), "score": {"num_solved": 0, "total_time": 0}}
        what = self.random.randint(0, 7)
        if what == 0 or row is None:
            rows = [*rows, other] if all(one["team_id"] != other["team_id"] for one in rows) else rows
        elif what == 1:
            rows = [one for one in rows if one is not row]
        elif what == 2:
            self.random.shuffle(rows)
        elif what == 3:
            row["rank"] += self.one([1, -1, 0]) if row["rank"] else 1
        elif what == 4:
            row["score"][self.one(["num_solved", "total_time"])] = self.random.randint(0, 300)
        elif what == 5 and cells:
            self.one(cells)[self.one(["num_judged", "num_pending", "time"])] = self.random.randint(0, 5)
        elif what == 6 and cells:
            one = self.one(cells)
            one["solved"] = not one.get("solved", False)
        else:
            others = [one for one in cells if one["problem_id"] != "other"]
            cells[:] = cells[1:] if self.maybe(0.5) else [*others, {"problem_id": "other"}]
        return rows

    def spoil(self, rows):
        """The rows with a value that none may have, or something twice."""
        row = self.one(rows) if rows else None
        if row is None:
            return rows
        cells, what = row.setdefault("problems", []), self.random.randint(0, 4)
        if what == 0:
            return [*rows, row]
        if what == 1 and cells:
            cells.append(dict(self.one(cells)))
        elif what == 2 and cells:
            name = self.one(list(BAD_CELLS))
            self.one(cells)[name] = self.one(BAD_CELLS[name])
        elif what == 3:
            name = self.one(list(BAD_SCORES))
            row["score"][name] = self.one(BAD_SCORES[name])
        else:
            name = self.one(list(BAD_ROWS))
            row[name] = self.one(BAD_ROWS[name])
        return rows

    def written(self, rows):
        board = {"time": "2024-03-02T14:00:00.000+00:00", "contest_time": "5:00:00.000", "state": {"ended": None}, "rows": rows}
        return json.dumps(board, ensure_ascii=self.maybe(0.5), indent=self.one([None, 1])).encode()

    def board(self, contest, shown):
        """The bytes of a board, in turns the same, others, and none."""
        rows, what = self.rows(contest, shown), self.random.random()
        if what > 0.97:
            return self.one(BAD_BOARDS)
        for _ in range(self.random.randint(1, 3) if what > 0.3 else 0):
            rows = self.change(rows)
        return self.written(self.spoil(rows) if what > 0.85 else rows)
