#!/bin/sh
# picture.sh PLAN SESSION OUT: draws a session on a plan as an SVG. What it shows are answers of the bench program, which is asked job info of every area behind each line of the
# session (a query changes nothing), and the plan's facts and the jobs' bounds as the audit program gives them; tools/picture.awk draws. Other programs are taken from
# the environment's LUVDROG_BENCH and LUVDROG_AUDIT.
set -eu

fail() {
    printf 'picture: %s\n' "$*" >&2
    exit 1
}

need_program() { # FILE
    if [ ! -x "$1" ]; then fail "$1 is not built: 'sh tools/prove.sh bench audit' proves and builds it"; fi
}

need_input() { # KIND FILE
    if [ ! -e "$2" ]; then fail "no such $1: $2"; fi
    if [ ! -f "$2" ] || [ ! -r "$2" ]; then fail "the $1 cannot be read: $2"; fi
}

# A link or a device would be replaced by the move at the end: they are refused.
need_output() { # FILE
    if [ -h "$1" ] || { [ -e "$1" ] && [ ! -f "$1" ]; }; then fail "the picture must be a plain file: $1"; fi
    if [ -e "$1" ] && [ ! -w "$1" ]; then fail "the picture cannot be written: $1"; fi
    folder=$(dirname -- "$1")
    if [ ! -d "$folder" ] || [ ! -w "$folder" ]; then fail "the picture's folder cannot be written: $folder"; fi
}

# Each line of the session, and behind it job info of all areas that a plan can have: those that it has not are refused.
questions() { awk '{ print; for (area = 0; area < 8; area++) print "10", area }'; }

# The answer to a plan that is not loaded is the only one, and no job info.
need_loaded() { # ANSWERS PLAN
    if [ "$(wc -l <"$1")" -ne 1 ]; then return; fi
    case $(cat "$1") in
    '?') fail "the plan cannot be loaded: $2 is over 4,096 bytes, or its devices are over 65,536" ;;
    *) fail "the plan is refused with number $(cat "$1") (document 01, 'Questions at the door'): $2" ;;
    esac
}

# The session's jobs and lock requests that the bench accepted, in order.
accepted_jobs() { # SESSION ANSWERS
    ANSWERS=$2 awk '
        { getline answer <ENVIRON["ANSWERS"]; for (area = 0; area < 8; area++) getline info <ENVIRON["ANSWERS"] }
        answer == "0" && $1 + 0 <= 7' "$1"
}

if [ $# -ne 3 ] || [ -z "$1" ] || [ -z "$2" ] || [ -z "$3" ]; then fail "three file names are needed: make picture PLAN=plan.bin SESSION=session.txt OUT=picture.svg"; fi
export LC_ALL=C
here=$(cd "$(dirname -- "$0")" && pwd)
bench=${LUVDROG_BENCH:-${here%/*}/crates/bench/out/bench}
audit=${LUVDROG_AUDIT:-${here%/*}/crates/audit/out/audit}
need_program "$bench"
need_program "$audit"
need_input plan "$1"
need_input session "$2"
need_output "$3"

work=$(mktemp -d)
trap 'rm -rf "$work"' EXIT
trap 'exit 1' HUP INT TERM
cat <"$1" >"$work/plan.bin"
# Either byte makes a line unreadable, but an awk may end the line at a 0.
tr '\000' '\001' <"$2" >"$work/session"
questions <"$work/session" >"$work/questions"
(cd "$work" && "$bench" <questions >answers) || fail "the bench program failed"
need_loaded "$work/answers" "$1"
if ! grep -q '^R' "$work/answers"; then fail "the session has no round (a line '0' with an answer for each device), so there is nothing to draw: $2"; fi
accepted_jobs "$work/session" "$work/answers" >"$work/jobs"
(cd "$work" && "$audit" <"$work/jobs" >audited) || fail "the audit program failed"
# The audit reads 262,143 bytes of jobs: of more the picture has no bounds, and says so.
if [ "$(cat "$work/audited")" = '?' ]; then (cd "$work" && "$audit" </dev/null >audited); fi

SESSION=$work/session ANSWERS=$work/answers AUDITED=$work/audited PLAN_NAME=$1 SESSION_NAME=$2 awk -f "$here/picture.awk" >"$work/picture.svg" || fail "nothing is drawn"
mv -f -- "$work/picture.svg" "$3" 2>/dev/null || fail "the picture cannot be written: $3"
