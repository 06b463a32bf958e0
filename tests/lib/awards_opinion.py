"""A second opinion on the awards that the desk shows.

Written to be read beside docs/FORMATS.md, as desk_opinion.py is, which asks it: whole lists, and nothing kept along the way.
"""

from .import_opinion import has_come

# So many places of each, as the rehearsal and the demo contest have them.
MEDALS = [("gold-medal", "Gold medal", 4), ("silver-medal", "Silver medal", 4), ("bronze-medal", "Bronze medal", 4)]


def are_shown(contest, now, is_jury):
    """To the jury once results are final, to all others once it is thawed too."""
    return has_come(contest["finalized"], now) and (is_jury or contest["start"] is None or has_come(contest["thaw"], now))


def made(contest, rows, solves):
    """All awards of the jury's board, by its rows and by the team, the problem and the time of each first solve."""
    rows = [row for row in rows if row["score"]["num_solved"] > 0]

    def award(which, citation, wins):
        return {"citation": citation, "id": which, "team_ids": [row["team_id"] for row in rows if wins(row)]}

    awards, first = [award("winner", "Contest winner", lambda row: row["rank"] == 1)], 1
    for which, citation, places in MEDALS:
        awards.append(award(which, citation, lambda row: first <= row["rank"] < first + places))
        first += places
    for problem in sorted(contest["problems"], key=lambda one: (one["ordinal"], one["id"].encode())):
        times = {team: time for team, solved, time in solves if solved == problem["id"]}
        earliest = min(times.values(), default=None)
        which, citation = f"first-to-solve-{problem['id']}", f"First to solve problem {problem['label']}"
        awards.append(award(which, citation, lambda row: times.get(row["team_id"], -1) == earliest))
    for group in sorted(contest["groups"], key=lambda one: one["id"].encode()):
        members = {team["id"] for team in contest["teams"] if group["id"] in team["group_ids"]}
        least = min((row["rank"] for row in rows if row["team_id"] in members), default=None)
        which, citation = f"group-winner-{group['id']}", f"Winner of group {group['name']}"
        awards.append(award(which, citation, lambda row: row["team_id"] in members and row["rank"] == least))
    return [one for one in awards if one["team_ids"]]
