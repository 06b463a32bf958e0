"""The lines of a text board, of the rows of a scoreboard as the Contest API has them: what a script that scores elsewhere is held
beside."""

from .replay_opinion import columns, left, right


def cell_text(cell):
    text = f"-{cell['num_judged']}" if cell["num_judged"] else ""
    if cell["solved"]:
        text = f"+{cell['num_judged']}/{cell['time']}"
    return text + (f"?{cell['num_pending']}" if cell["num_pending"] else "") or "."


def lines_of(rows, names):
    """A line for each row, of teams with these names (docs/FORMATS.md, section 2)."""
    width = max([4] + [columns(names[row["team_id"]]) for row in rows])

    def line(row):
        score, cells = row["score"], [right(cell_text(cell), 9) for cell in row["problems"]]
        numbers = [right(str(score["num_solved"]), 6), right(str(score["total_time"]), 6)]
        return "  ".join([right(str(row["rank"]), 4), left(names[row["team_id"]], width), *numbers, *cells])

    return [line(row) for row in rows]


def lines_in(board):
    """Those of a text board, behind its name, what it is and its heading."""
    return board.split("\n")[3:-1]
