"""The demo contest: its files for `desk init` and `desk import`, and its rows; and the head of the rehearsal, at whose desk the
walks of crates/walks go."""

import re

from . import clock
from .program import DATA

# The moment at which both start, 2024-03-02T09:00:00Z, in milliseconds, and one an hour before as faketime reads it.
START = 1_709_370_000_000
MORNING = "2024-03-02 08:00:00"
REHEARSAL = {"id": "rehearsal", "name": "Rehearsal", "duration": 18_000_000, "freeze": 3_600_000, "penalty": 20}
AT_REHEARSAL = f"/contests/{REHEARSAL['id']}"

CONTEST = '{"id":"demo","name":"Demo Cup","duration":"5:00:00","scoreboard_freeze_duration":"1:00:00"}\n'
STARTED = CONTEST.replace('"duration"', '"start_time":"2024-03-02T09:00:00.000+00:00","duration"')
FILES = {
    "init": STARTED,
    "judgement-types": '[{"id":"AC","name":"correct","solved":true},{"id":"WA","name":"wrong answer","solved":false,"penalty":true},{"id":"CE","name":"compile error","solved":false}]',
    "languages": '[{"id":"cpp","name":"C++"},{"id":"java","name":"Java","entry_point_required":true}]',
    "groups": '[{"id":"north","name":"North"},{"id":"south","name":"South"},{"id":"guests","name":"G\\u00e4ste"}]',
    "problems": '[{"id":"a","label":"A","name":"Apples","ordinal":0},{"id":"b","label":"B","name":"Bridges","ordinal":1}]',
    "teams-csv": "id,name,group_ids,hidden\nt1,Alpha,north guests,\nt2,Beta,south,\nt3,Gamma,,false\nt9,Staff,,true\n",
    "accounts-csv": "id,role,team_id,token\n"
    "j2,judge,,token-j2\nj1,judge,,token-j1\na9,team,t9,token-a9\na1,team,t1,token-a1\na2,team,t2,token-a2\n"
    "a3,team,t3,token-a3\nadm,admin,,token-adm\n",
}
# The same rows and others, in each table, as SQL.
ROWS = (DATA / "tables/store_demo.sql").read_text(encoding="utf-8")
# And as they stood in the first schema, where a clarification went to a team or, if its number is 0, to all.
FIRST_ROWS = re.sub(r"(?m)^  \((\d+), [01], (\d+, \d+, [01], ')", r"  (\1, \2", ROWS)
FIRST_ROWS = FIRST_ROWS.replace("desk VALUES (1, 2)", "desk VALUES (1, 1)").replace("INTO notices", "INTO clarifications")


def made(desk, files):
    """A folder with a contest in cup.db, made at eight o'clock of its file for `init`, the first, and of those of each kind."""
    folder = desk.new_folder()
    for name, text in files.items():
        (folder / name).write_text(text, encoding="utf-8")
        words = ("init", "cup.db", name) if name == "init" else ("import", "cup.db", name, name)
        given = desk.run(folder, *words, before=clock.at(MORNING))
        desk.note(given[0] == 0, f"{words} of {text}: {given}")
    return folder
