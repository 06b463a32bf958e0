#!/usr/bin/env bash
# A whole contest by curl alone, once it is set up: from a start that is put off, over submissions, verdicts, a question
# and a rejudging, to awards that all see. It lasts eight seconds, of which the last four are frozen.
#
#     whole_contest.sh [--program PATH]
#
# Prints each request with its reply. Ends with the line `N passed, M failed`; the exit status is 0 if M is 0.
set -u
top=$(dirname "$(readlink -f "${BASH_SOURCE[0]}")")
while [ ! -e "$top/crates.txt" ]; do top=$(dirname "$top"); done
desk=$top/crates/desk/out/desk
[ "${1-}" = --program ] && desk=$(readlink -f "$2")
[ -x "$desk" ] || { echo "there is no program $desk: build it, or name one by --program" >&2; exit 2; }
cup=$top/examples/cup
folder=$(mktemp -d) && cd "$folder" || exit 1
server=
trap '[ -z "$server" ] || kill "$server" 2>/dev/null; rm -rf "$folder"' EXIT
passed=0 failed=0

# Counts whether what came has a text.
has() {
    if [[ $1 == *"$2"* ]]; then
        passed=$((passed + 1))
    else
        failed=$((failed + 1))
        echo "    wanted: $2"
    fi
}

# A request of a team, a judge, the director or anyone, which has to be answered so; the reply stands in `reply`.
ask() {
    local who=$1 method=$2 path=$3 body=$4 wanted=$5
    local words=(-s -m 20 -w ' %{http_code}' -X "$method")
    [ "$who" = anyone ] || words+=(-H "Authorization: Bearer example-$who")
    [ -z "$body" ] || words+=(-H 'Content-Type: application/json' -d "$body")
    reply=$(curl "${words[@]}" "http://127.0.0.1:$port$path")
    echo "$who: $method $path $body"
    echo "    $reply"
    has "$reply" "$wanted"
}

# A moment so many seconds from now, as the Contest API writes it.
moment() {
    date -u -d "+$1 seconds" +%FT%T.%3N+00:00
}

# Waits until so many milliseconds after the start.
wait_until() {
    local left=$(($1 + started - $(date +%s%3N)))
    [ "$left" -le 0 ] || sleep "$((left / 1000)).$(printf %03d $((left % 1000)))"
}

# Whether a command ends well and prints this, which may begin and end with the brackets of the whole.
runs() {
    local wanted=$1 said status
    shift
    said=$("$desk" "$@" 2>&1)
    status=$?
    echo "desk $*"
    echo "    $said"
    has "[$said]" "$wanted"
    has "status $status." "status 0."
}

sed 's/"2030-06-01T09:00:00.000+00:00"/null/; s/"5:00:00"/"0:00:08"/; s/"1:00:00"/"0:00:04"/' "$cup/contest.json" >contest.json
runs '[]' init cup.db contest.json
runs 'added 5' import cup.db judgement-types "$cup/judgement-types.json"
runs 'added 3' import cup.db languages "$cup/languages.json"
runs 'added 3' import cup.db groups "$cup/groups.json"
runs 'added 4' import cup.db problems "$cup/problems.json"
runs 'added 5' import cup.db teams-csv "$cup/teams.csv"
runs 'added 8' import cup.db accounts-csv "$cup/accounts.csv"
"$desk" serve cup.db --requests 1000000 --port 0 >port &
server=$!
for _ in $(seq 100); do
    grep -q listening port && break
    sleep 0.1
done
port=$(sed 's/.*://' port)
here=/contests/riverside
program='{"problem_id":"anchors","language_id":"cpp","files":[{"data":"YWJj"}]}'

# Before the start.
started=$(($(date +%s%3N) + 2000))
ask director PATCH $here "{\"start_time\":\"$(date -u -d "@$((started / 1000)).$(printf %03d $((started % 1000)))" +%FT%T.%3N+00:00)\"}" '"start_time":"20'
ask otters POST $here/submissions "$program" '"NotOpen"} 409'

# The first half, which all see.
wait_until 200
ask otters POST $here/submissions "$program" '"id":"s1-1"'
ask judge1 POST /jury/proposals '{"submission_id":"s1-1","judgement_type_id":"WA"}' '"released":true'
ask herons POST $here/clarifications '{"text":"Is 0 allowed?","problem_id":"anchors"}' '"id":"c2-1"'
ask judge1 POST $here/clarifications '{"text":"Yes.","reply_to_id":"c2-1"}' '"id":"g-1"'
ask anyone GET $here/clarifications '' '"text":"Yes."'
ask judge1 POST /jury/rejudgings '{"reason":"0 was refused","submission_ids":["s1-1"]}' '"state":"open"'
ask judge1 POST /jury/rejudgings/1/verdicts '{"submission_id":"s1-1","judgement_type_id":"AC"}' '"ready":true'
ask judge1 POST /jury/rejudgings/1/apply '' '"state":"applied"'
ask anyone GET $here/scoreboard '' '"num_solved":1'

# The second half, which is frozen.
wait_until 4200
ask herons POST $here/submissions "$program" '"id":"s2-1"'
ask judge1 POST /jury/proposals '{"submission_id":"s2-1","judgement_type_id":"AC"}' '"released":true'
ask otters GET $here/judgements '' '[{'
ask anyone GET $here/scoreboard '' '"num_pending":1'

# After the end. Both solved it in minute 0, so both win, by name.
winners='{"citation":"Contest winner","id":"winner","team_ids":["herons","otters"]}'
wait_until 8200
ask director POST /jury/finalize '' '"finalized":"20'
ask otters POST $here/submissions "$program" '"NotOpen"} 409'
ask anyone GET $here/awards '' '[] 200'
ask judge1 GET $here/awards '' "$winners"
ask director PATCH $here "{\"scoreboard_thaw_time\":\"$(moment 1)\"}" '"scoreboard_thaw_time":"20'
ask anyone GET $here/awards '' '[] 200'
sleep 1.2
ask anyone GET $here/awards '' "$winners"
ask anyone GET $here/awards/first-to-solve-anchors '' '"team_ids":["otters"]'
kill "$server"
wait "$server" 2>/dev/null
server=
runs 'first-to-solve-anchors: First to solve problem A: Otters' awards cup.db
runs 's1-1,otters,anchors,cpp,20' export cup.db
echo "$passed passed, $failed failed"
[ "$failed" = 0 ]
