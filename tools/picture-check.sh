#!/bin/sh
# The pictures of sessions: those of docs/pictures are what tools/picture.sh draws today, byte for byte. And of each recorded run that has a round, the picture is well-formed, and each
# area's last job has as many cells of own, above, below and locked as the bench answers to a last job info. Where there is no round, or no plan, nothing may be drawn.
set -eu
cd "$(dirname "$0")/.."
work=$(mktemp -d)
trap 'rm -rf "$work"' EXIT

fail() {
    echo "picture-check: $*" >&2
    exit 1
}

same() { # PICTURE PLAN SESSION
    sh tools/picture.sh "$2" "$3" "$work/picture.svg" || fail "$1: it cannot be drawn"
    cmp "$work/picture.svg" "$1" || fail "$1 is not what tools/picture.sh draws"
}

# Tags in pairs, one root, no bare "&" or "<".
well_formed() { # PICTURE
    awk '
        function wrong(what) { print "line " NR ": " what; failed = 1; exit 1 }
        { text = $0; gsub(/&(amp|lt|gt|quot);/, "", text); if (text ~ /&/) wrong("a bare &") }
        {
            while (match(text, /<[^>]*>/)) {
                if (!depth && roots++) wrong("more than one root")
                if (substr(text, 1, RSTART - 1) ~ /[<>]/) wrong("a bare < or >")
                tag = substr(text, RSTART + 1, RLENGTH - 2)
                text = substr(text, RSTART + RLENGTH)
                name = tag
                sub(/[ \/].*/, "", name)
                if (tag ~ /^\//) { if (open[depth--] != substr(tag, 2)) wrong("</" substr(tag, 2) "> closes nothing") }
                else if (tag !~ /\/$/) open[++depth] = name
            }
            if (text ~ /[<>]/) wrong("a bare < or >")
        }
        END { if (!failed && (depth || roots != 1)) { print "tags are left open"; exit 1 } }' "$1"
}

# "own above below locked" of each area's last job, by its cells; areas without a job have none.
drawn() { # PICTURE
    awk '
        match($0, /class="(job|own|above|below|locked) A[0-7]\.[0-9]+"/) {
            split(substr($0, RSTART + 7, RLENGTH - 8), word, " ")
            cells[word[1], word[2]]++
            if (word[1] == "job") last[substr(word[2], 2, 1)] = word[2]
        }
        END { for (area = 0; area < 8; area++) print area, cells["own", last[area]] + 0, cells["above", last[area]] + 0, cells["below", last[area]] + 0, cells["locked", last[area]] + 0 }' "$1"
}

# The same as the bench answers it; an area that the plan has not is refused.
answered() { # PLAN SESSION
    { awk 1 "$2"; for area in 0 1 2 3 4 5 6 7; do echo "10 $area"; done; } >"$work/session"
    sh tools/run-program.sh bench "$1" "$work/session" | tail -n 8 | awk '{ print NR - 1, $3 + 0, $4 + 0, $5 + 0, $6 + 0 }'
}

agrees() { # PLAN SESSION
    sh tools/picture.sh "$1" "$2" "$work/picture.svg" || fail "$2: it cannot be drawn"
    well_formed "$work/picture.svg" || fail "$2: its picture is not well-formed"
    drawn "$work/picture.svg" >"$work/drawn"
    answered "$1" "$2" >"$work/answered"
    cmp "$work/drawn" "$work/answered" || fail "$2: its picture's cells are not the bench's counts"
}

not_drawn() { # PLAN SESSION
    rm -f "$work/picture.svg"
    if sh tools/picture.sh "$1" "$2" "$work/picture.svg" 2>/dev/null || [ -e "$work/picture.svg" ]; then fail "$2: something is drawn, though it has no round"; fi
}

same docs/pictures/plan-t.svg examples/plan-t/plan.bin examples/plan-t/session.txt
same docs/pictures/marks.svg examples/runs/clears/plan.bin examples/pictures/marks/session.txt
agrees examples/pictures/eight-areas/plan.bin examples/pictures/eight-areas/session.txt
count=1
for run in examples/runs/*; do
    if ! grep -q '^R' "$run/answers.txt"; then
        not_drawn "$run/plan.bin" "$run/session.txt"
        continue
    fi
    agrees "$run/plan.bin" "$run/session.txt"
    count=$((count + 1))
done
echo "2 pictures are as kept, and $count agree with the bench's counts"
