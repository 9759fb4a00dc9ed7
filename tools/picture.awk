# picture.awk: draws what picture.sh has gathered. The environment names the files: SESSION, the session's lines; ANSWERS, the bench's answers, nine for each line: its own and job
# info of areas 0 to 7; AUDITED, what the audit prints of the plan and the accepted jobs. PLAN_NAME and SESSION_NAME stand in the heading.
#
# A column is a round: what stands there when the round is over. A gap is the time behind so many rounds and before the next. A block is what one device shows over one or more rounds. Jobs are
# numbered as they are accepted, as in the audit, and named by their area and their place there: A0.2 is area 0's second.

BEGIN {
    name_things()
    read_audit(ENVIRON["AUDITED"])
    play(ENVIRON["SESSION"], ENVIRON["ANSWERS"])
    draw()
}

function name_things() {
    kinds[0] = "round"; kinds[1] = "write"; kinds[2] = "read"; kinds[3] = "compare"; kinds[4] = "erase"; kinds[6] = "blank check"
    kinds[7] = "lock"; kinds[8] = "release"; kinds[9] = "cancel"; kinds[10] = "info"
    shorter["compare"] = "comp."; shorter["blank check"] = "blank"; shorter["release"] = "rel."; shorter["cancel"] = "canc."
    results[0] = "OK"; results[1] = "failed"; results[2] = "inconsistent"; results[3] = "cancelled"
    split("own above below locked", counts, " ")
}

function read_audit(file,    line, word, job) {
    while ((getline line <file) > 0) {
        split(line, word, " ")
        if (word[1] == "device") {
            devices++
            patience[word[2]] = word[6]
            suspends[word[2]] = line ~ / suspends/
            clears[word[2]] = line ~ / clears$/
        } else if (word[1] == "area" && word[3] == "rank") {
            areas++
            priority[word[2]] = word[6]
        } else if (word[1] == "job") job++
        else if (word[1] == "stretch") stretch_device[job] = word[4]
        else if (line ~ /^(own|above|below) at most /) bound[job, word[1]] = word[4]
        else if (line ~ /^locked 0 /) bound[job, "locked"] = 0
        else if (line ~ /^rounds at most /) bound[job, "rounds"] = word[12]
    }
    audited = job + 0
}

# ---- The session, from its answers ----

function play(session, answers,    line, answer, area) {
    rounds = 0
    for (area = 0; area < areas; area++) before[area] = "0 0 0 0 0 0"
    while ((getline line <session) > 0) {
        lines++
        if ((getline answer <answers) < 1) disagree("has no answer")
        for (area = 0; area < 8; area++) getline after[area] <answers
        if (answer ~ /^R/) play_round(line, answer)
        else play_call(line, answer)
        for (area = 0; area < areas; area++) {
            before[area] = after[area]
            if (area in job_of) job_info[job_of[area]] = after[area]
        }
    }
}

# What is drawn rests on when a job is pending. Where an answer does not fit to that, nothing is drawn.
function disagree(what) {
    print "picture: the session's line " lines " " what | "cat >&2"
    close("cat >&2")
    exit 1
}

function play_round(line, answer,    said, shown, area, device) {
    rounds++
    split(line, said, " ")
    split(answer, shown, " ")
    for (area = 0; area < areas; area++) play_area(area)
    for (device = 0; device < devices; device++) play_device(device, plain(said[device + 2]), shown[device + 2])
}

# A job that is pending through a round adds 1 to one count; one that the round ends adds nothing.
function play_area(area,    count) {
    count = what_moved(area)
    if (!pending[area]) {
        if (count != "") disagree("moves a count of area " area ", which has no job")
        return
    }
    job_rounds[job_of[area]]++
    cell[rounds, area] = count == "" ? "end" : count
    cell_job[rounds, area] = job_of[area]
    if (count == "") end_job(area, "round " rounds)
}

function what_moved(area,    old, new, k) {
    split(before[area], old, " ")
    split(after[area], new, " ")
    for (k = 1; k <= 4; k++) if (new[k + 2] != old[k + 2]) return counts[k]
    return ""
}

# A lock request has one stretch: that of the device that it locks.
function end_job(area, by,    job, word) {
    job = job_of[area]
    pending[area] = 0
    split(after[area], word, " ")
    job_result[job] = word[1]
    job_end[job] = by
    if (job_type[job] == 7 && word[1] == 0) {
        lock_round[stretch_device[job]] = rounds
        holder[stretch_device[job]] = area
    }
}

# A request that has taken "p", and whose patience is not over, goes on: if something else runs now, it is suspended.
function play_device(device, said, shown,    id, goes_on) {
    id = now[device]
    said_at[rounds, device] = said
    if (!is_request(id)) said_how[rounds, device] = "ignored"
    else if (said == "p") {
        polls[device]++
        if (polls[device] >= patience[device] + 0) said_how[rounds, device] = "dropped"
        else if (shown == block_shown[id]) goes_on = 1
        else {
            aside[device] = id
            aside_polls[device] = polls[device]
        }
    }
    if (!goes_on) begin_block(device, shown)
    at[rounds, device] = now[device]
    polls_at[rounds, device] = polls[device]
    aside_at[rounds, device] = aside[device]
    aside_polls_at[rounds, device] = aside_polls[device]
}

function is_request(id) { return block_shown[id] ~ /:/ }

function begin_block(device, shown) {
    if (shown ~ /:/) begin_request(device, shown)
    else if (shown != block_shown[now[device]] || (shown == "L" && lock_round[device] == rounds)) {
        now[device] = ++blocks
        block_shown[blocks] = shown
        if (shown == "L" && (device in holder)) block_area[blocks] = holder[device]
    }
}

# The same segment once more in one job is a new try, unless it is the suspended one that resumes.
function begin_request(device, shown,    part, job) {
    split(shown, part, ":")
    job = job_of[part[1]]
    now[device] = ++blocks
    block_shown[blocks] = shown
    block_area[blocks] = part[1]
    block_kind[blocks] = kinds[part[2]]
    block_bytes[blocks] = part[4] "@" part[3]
    polls[device] = 0
    if (aside[device] && shown == block_shown[aside[device]]) {
        polls[device] = aside_polls[device]
        block_resumed[blocks] = 1
        aside[device] = 0
    } else if (last_shown[job] == shown) tries[job]++
    else tries[job] = 1
    last_shown[job] = shown
    block_try[blocks] = tries[job]
}

# ---- The calls of the session ----

function play_call(line, answer,    word, type, area, name, range) {
    split(line, word, " ")
    line = clean(line)
    if (answer == "?") {
        note_call("unreadable", "? " line, "", "", line)
        return
    }
    type = word[1] + 0
    area = plain(word[2])
    if (type == 10 && answer ~ / /) return
    check_pending(type, area, answer)
    name = "A" area " " kinds[type]
    if (kinds[type] in shorter) name = name "\nA" area " " shorter[kinds[type]]
    if (type <= 8) range = plain(word[3]) "+" plain(word[4])
    if (answer != "0") note_call("refused", name, range, "refused " answer "\nno " answer, line)
    else if (type == 9) play_cancel(name, area, line)
    else {
        note_call("accepted", name, range, "", line)
        if (type <= 7) begin_job(type, area, range)
    }
}

# 11 and 17 say whether a job is pending: the bench must say what the picture takes it for.
function check_pending(type, area, answer,    said) {
    said = ""
    if (type <= 7 && answer != 10) said = answer == 11
    if (type == 9 && answer != 10) said = answer == 0
    if (said != "" && said != pending[area] + 0) disagree("is answered " answer ", but area " area " was taken for " (pending[area] ? "pending" : "idle"))
}

function begin_job(type, area, range) {
    jobs++
    job_of[area] = jobs
    pending[area] = 1
    job_type[jobs] = type
    job_call[jobs] = kinds[type] " " range
    job_gap[jobs] = rounds
    job_rounds[jobs] = 0
    job_name[jobs] = "A" area "." ++jobs_of[area]
    job_at[area, jobs_of[area]] = jobs
}

# With a request running or suspended the job stays pending until that ends.
function play_cancel(name, area, line,    device, requested) {
    for (device = 0; device < devices; device++) {
        if (is_request(now[device]) && block_area[now[device]] == area) requested = 1
        if (aside[device] && block_area[aside[device]] == area) requested = 1
    }
    note_call("accepted", name, "", requested ? "runs on" : "ends it", line)
    if (requested) return
    end_job(area, "cancel before round " (rounds + 1))
    if (job_result[job_of[area]] != 3) disagree("is a cancel that should have ended the job of area " area)
    cut[rounds, area] = cut[rounds, area] " " job_name[job_of[area]]
}

# Equal calls in a row are one entry.
function note_call(class, name, range, outcome, line,    n, key) {
    n = calls[rounds] + 0
    key = class SUBSEP name SUBSEP range SUBSEP outcome
    if (n && call_key[rounds, n] == key) {
        call_times[rounds, n]++
        return
    }
    n = ++calls[rounds]
    call_key[rounds, n] = key
    call_times[rounds, n] = 1
    call_class[rounds, n] = class
    call_words[rounds, n, 1] = name
    call_words[rounds, n, 2] = range
    call_words[rounds, n, 3] = outcome
    sub(/\n.*/, "", outcome)
    call_title[rounds, n] = "line " lines " of the session, " line ": " (outcome == "" ? class : outcome)
}

# ---- Texts ----

# A number without leading zeros.
function plain(s) {
    if (s ~ /^0+[0-9]/) sub(/^0+/, "", s)
    return s == "" ? "0" : s
}

# Bytes that XML or a font may not have, and the far end of a line that nobody would read.
function clean(s) {
    s = substr(s, 1, 200)
    gsub(/[^ -~]/, "~", s)
    return s
}

function escaped(s) {
    gsub(/&/, "\\&amp;", s)
    gsub(/</, "\\&lt;", s)
    gsub(/>/, "\\&gt;", s)
    gsub(/"/, "\\&quot;", s)
    return s
}

# The first of the texts, one a line, that fits; if none does, the beginning of the last.
function fitted(texts, width,    text, count, k, room) {
    room = int(width / glyph)
    count = split(texts, text, "\n")
    for (k = 1; k <= count; k++) if (length(text[k]) <= room) return escaped(text[k])
    return escaped(substr(text[count], 1, room - 1)) "…"
}

function put(s) { out[++puts] = s }

function put_text(x, y, class, s) { put("<text x=\"" x "\" y=\"" y "\"" (class == "" ? "" : " class=\"" class "\"") ">" s "</text>") }

function put_rect(x, y, width, height, class) {
    put("<rect x=\"" x "\" y=\"" y "\" width=\"" width "\" height=\"" height "\" class=\"" class "\"/>")
}

function put_path(class, d) { put("<path class=\"" class "\" d=\"" d "\"/>") }

function open_group(title) { put("<g><title>" escaped(title) "</title>") }

function open_row(y) { put("<g transform=\"translate(0," y ")\">") }

function close_group() { put("</g>") }

# ---- The picture ----

function draw(    band) {
    lay_out()
    y = 10
    draw_heading()
    if (bands > 1) draw_legend()
    for (band = 1; band <= bands; band++) draw_band((band - 1) * per_band + 1, smaller(band * per_band, columns))
    draw_totals()
    if (bands == 1) draw_legend()
    print_all()
}

function smaller(a, b) { return a < b ? a : b }

function wider(a) { if (a > width) width = a }

# Bands of up to 20 rounds, alike in length; calls behind the last round have a column of their own. The narrowest column, 54 pixels, takes eight characters, as in "A0 write".
function lay_out() {
    margin = 8
    left = 96
    columns = rounds + (calls[rounds] ? 1 : 0)
    bands = int((columns + 19) / 20)
    per_band = int((columns + bands - 1) / bands)
    column = smaller(112, int(1080 / per_band))
    size = column < 80 ? 10 : 11
    glyph = size * 0.602
    line_height = size + 1
    wider(left + per_band * column + margin)
}

function draw_heading() {
    put_text(margin, y + 14, "heading", "A session of " many_rounds() ": what each device ran, and what each job waited for")
    put_text(margin, y + 32, "", "plan " file_name("PLAN_NAME"))
    put_text(margin, y + 47, "", "session " file_name("SESSION_NAME"))
    put_text(margin, y + 62, "", "What runs, the counts and the results are answers of the bench program; polls and tries are counted from them.")
    put_text(margin, y + 77, "", "The bounds are those that the audit program gives.")
    wider(790)
    y += 89
}

function many_rounds() { return rounds (rounds == 1 ? " round" : " rounds") }

# Of a long path its end.
function file_name(variable,    path) {
    path = ENVIRON[variable]
    if (length(path) > 110) path = "..." substr(path, length(path) - 106)
    return escaped(clean(path))
}

function print_all(    k) {
    print "<svg xmlns=\"http://www.w3.org/2000/svg\" width=\"" width "\" height=\"" y "\" viewBox=\"0 0 " width " " y "\">"
    print "<title>" file_name("SESSION_NAME") " on " file_name("PLAN_NAME") ", " many_rounds() "</title>"
    print_styles()
    print "<rect width=\"" width "\" height=\"" y "\" fill=\"#fff\"/>"
    for (k = 1; k <= puts; k++) print out[k]
    print "</svg>"
}

# Counts and locks differ by their patterns; colours only help.
function print_styles(    tint, k) {
    print "<style>"
    print "text{font:11px \"DejaVu Sans Mono\",Menlo,Consolas,\"Liberation Mono\",monospace;white-space:pre}"
    print ".heading{font-size:15px;font-weight:bold}.bold{font-weight:bold}.small{font-size:10px}.column{font-size:" size "px}.middle{font-size:" size "px;text-anchor:middle}"
    print ".grid{stroke:#bbb}.free{stroke:#777;stroke-dasharray:1 4}"
    print ".own{fill:#14632f}.above{fill:url(#above)}.below{fill:url(#below)}.locked{fill:url(#locked)}.end{fill:#fff;stroke:#000;stroke-width:2}"
    print ".accepted{fill:#fff;stroke:#666}.refused{fill:#fbe3e3;stroke:#000;stroke-width:2}.unreadable{fill:#fff;stroke:#000;stroke-dasharray:2 2}"
    print ".lock{fill:#fff;stroke:#000}.aside{fill:#fff;stroke:#000;stroke-dasharray:6 3}"
    split("#dbe9f6 #fbe0e3 #dcefdc #f0dff0 #f3f0cf #d8efec #f3dce8 #e6e6e6", tint, " ")
    for (k = 1; k <= 8; k++) print ".area" k - 1 "{fill:" tint[k] ";stroke:#000}"
    print ".open{stroke:none}.hollow{fill:none}"
    print "</style>"
    print "<defs>"
    print_pattern("above", 6, "M-1,7 7,-1 M-1,1 1,-1 M5,7 7,5", "stroke=\"#a01020\" stroke-width=\"2\"")
    print_pattern("below", 6, "M1,3h2.5", "stroke=\"#a04800\" stroke-width=\"2.5\"")
    print_pattern("locked", 6, "M0,0 6,6 M6,0 0,6", "stroke=\"#4a1c70\" stroke-width=\"1.2\"")
    print "</defs>"
}

# Rows are groups of their own, so that a pattern begins at the strip's top.
function print_pattern(name, step, d, stroke) {
    print "<pattern id=\"" name "\" y=\"14\" width=\"" step "\" height=\"6\" patternUnits=\"userSpaceOnUse\"><path d=\"" d "\" fill=\"none\" " stroke "/></pattern>"
}

# ---- A band: calls, round numbers, devices, areas ----

function draw_band(first, last,    round, device, area) {
    draw_calls(first, last)
    draw_grid(first, last, y, y + 16)
    put_text(margin, y + 12, "", "round")
    for (round = first; round <= last; round++) put_text(x_of(round, first) + 4, y + 12, "bold", round > rounds ? "end" : round)
    y += 18
    for (device = 0; device < devices; device++) draw_device(device, first, smaller(last, rounds))
    for (area = 0; area < areas; area++) draw_area(area, first, smaller(last, rounds))
    y += 26
}

# The lines between the rounds, in the row that is open.
function draw_grid(first, last, top, bottom,    round, d) {
    for (round = first; round <= last + 1; round++) d = d "M" x_of(round, first) "," top "V" bottom
    put_path("grid", d)
}

function x_of(round, first) { return left + (round - first) * column }

# The calls of each gap stand above the round behind it, one under the other, down to the round's number.
function draw_calls(first, last,    round, n, height, tallest, stack) {
    tallest = 0
    for (round = first; round <= last; round++) {
        height[round] = 0
        for (n = 1; n <= calls[round - 1]; n++) height[round] += wrap_call(round - 1, n) * line_height + 6
        if (height[round] > tallest) tallest = height[round]
    }
    if (tallest) put_text(margin, y + tallest - 6, "", "calls")
    for (round = first; round <= last; round++) {
        stack = y + tallest - height[round]
        for (n = 1; n <= calls[round - 1]; n++) stack += draw_call(round - 1, n, x_of(round, first), stack)
    }
    y += tallest
}

function draw_call(gap, n, x, top,    count, k) {
    count = wrap_call(gap, n)
    open_group(call_title[gap, n] (call_times[gap, n] > 1 ? " (" call_times[gap, n] " times in a row)" : ""))
    put_rect(x + 1.5, top + 1, column - 3, count * line_height + 3, call_class[gap, n])
    for (k = 1; k <= count; k++) put_text(x + 3, top + k * line_height, "column", wrapped[k])
    close_group()
    return count * line_height + 6
}

# The lines of a call's entry, each as long as the column allows, in `wrapped`.
function wrap_call(gap, n,    word, k, first, count, room) {
    room = column - 5
    count = 0
    call_words[gap, n, 4] = call_times[gap, n] > 1 ? call_times[gap, n] " times\nx" call_times[gap, n] : ""
    for (k = 1; k <= 4; k++) {
        word = call_words[gap, n, k]
        if (word == "") continue
        first = word
        sub(/\n.*/, "", first)
        if (count && (length(wrapped[count]) + 1 + length(first)) * glyph <= room) wrapped[count] = wrapped[count] " " escaped(first)
        else wrapped[++count] = fitted(word, room)
    }
    return count
}

# ---- A device's row: the chip's answers, what runs, and what is suspended ----

function draw_device(device, first, last,    round, from) {
    open_row(y)
    draw_grid(first, last, 13, suspends[device] ? 76 : 60)
    put_text(margin, 25, "bold", "D" device)
    put_text(margin, 37, "small", "patience " patience[device])
    if (suspends[device]) put_text(margin, 49, "small", clears[device] ? "susp. clears" : "suspends")
    for (round = first; round <= last; round++) draw_answer(device, round, x_of(round, first))
    for (from = first; from <= last; from = round) {
        for (round = from + 1; round <= last && at[round, device] == at[from, device]; round++) continue
        draw_block(device, from, round - 1, x_of(from, first))
    }
    for (from = first; suspends[device] && from <= last; from = round) {
        for (round = from + 1; round <= last && aside_at[round, device] == aside_at[from, device]; round++) continue
        if (aside_at[from, device]) draw_aside(device, from, round - 1, x_of(from, first))
    }
    close_group()
    y += suspends[device] ? 76 : 60
}

function draw_answer(device, round, x,    said, how, words) {
    said = said_at[round, device]
    how = said_how[round, device]
    words = said == "p" ? "pending" : said == "d" ? "done" : "failed after " said "\nfailed " said "\nfail " said
    if (how == "ignored") words = "(" said ")"
    if (how == "dropped") words = "pending: dropped\ndropped"
    put_text(x, 10, "middle", fitted(words, column - 5))
}

function draw_block(device, from, to, x,    id, width) {
    id = at[from, device]
    width = (to - from + 1) * column - 2
    open_group(block_title(device, id, from, to))
    if (block_shown[id] == "-") {
        put_path("free", "M" x + 4 ",34H" x + width - 2)
        put_text(x + 3, 30, "column", "free")
    } else if (block_shown[id] == "L") {
        put_frame(x + 1, 14, width, 40, "lock", at[from - 1, device] == id, at[to + 1, device] == id)
        put_rect(x + 2, 46, width - 2, 6, "locked")
        put_text(x + 3, 15 + size, "column", "locked")
        if (id in block_area) put_text(x + 3, 15 + size + line_height, "column", "by A" block_area[id])
    } else {
        put_frame(x + 1, 14, width, 40, "area" block_area[id], at[from - 1, device] == id, at[to + 1, device] == id)
        draw_request(device, id, from, to, x + 3, width - 3)
    }
    close_group()
}

# A side where it goes on in another band stays open.
function put_frame(x, top, width, height, class, open_left, open_right,    d) {
    if (!open_left && !open_right) {
        put_rect(x, top, width, height, class)
        return
    }
    put_rect(x, top, width, height, class " open")
    d = "M" x "," top "h" width "M" x "," top + height "h" width
    if (!open_left) d = d "M" x "," top "v" height
    if (!open_right) d = d "M" x + width "," top "v" height
    put_path(class " hollow", d)
}

function block_title(device, id, from, to,    text) {
    text = "device " device ", " (from == to ? "round " from : "rounds " from " to " to) ": "
    if (block_shown[id] == "-") return text "free"
    if (block_shown[id] == "L") return text "locked" ((id in block_area) ? " by area " block_area[id] : "")
    text = text "area " block_area[id] ", " block_kind[id] ", " block_bytes[id] ", try " block_try[id] (block_resumed[id] ? ", resumed" : "")
    return text ", polls " polls_at[from, device] (from == to ? "" : " to " polls_at[to, device]) " of patience " patience[device]
}

function draw_request(device, id, from, to, x, width,    round, name, polled, mark) {
    name = "A" block_area[id] " " block_kind[id]
    if (block_kind[id] in shorter) name = name "\nA" block_area[id] " " shorter[block_kind[id]]
    put_text(x, 15 + size, "column", fitted(name, width))
    put_text(x, 15 + size + line_height, "column", fitted(block_bytes[id], width))
    for (round = from; round <= to; round++) {
        polled = polls_at[round, device] "/" patience[device]
        mark = block_resumed[id] ? " resumed\n" polled " res." : block_try[id] > 1 ? " try " block_try[id] "\n" polled " t" block_try[id] : ""
        put_text(x + (round - from) * column, 15 + size + 2 * line_height, "column", fitted(polled (round == from ? mark : ""), column - 5))
    }
}

function draw_aside(device, from, to, x,    id, width, polled, name) {
    id = aside_at[from, device]
    width = (to - from + 1) * column - 2
    name = "A" block_area[id]
    polled = aside_polls_at[from, device] "/" patience[device]
    open_group("device " device ", " (from == to ? "round " from : "rounds " from " to " to) ": area " block_area[id] ", " block_kind[id] ", " block_bytes[id] ", suspended, polls " polled)
    put_frame(x + 1, 57, width, 15, "aside", aside_at[from - 1, device] == id, aside_at[to + 1, device] == id)
    put_text(x + 3, 68, "column", fitted(name " erase " block_bytes[id] " suspended " polled "\n" name " suspended " polled "\n" name " susp. " polled "\n" name " " polled, width - 3))
    close_group()
}

# ---- An area's row: what its job counted in each round ----

function draw_area(area, first, last,    round, x) {
    open_row(y)
    draw_grid(first, last, 0, 25)
    put_text(margin, 13, "bold", "A" area)
    put_text(margin + 18, 13, "small", "prio " priority[area])
    put_path("free", "M" left ",20H" x_of(last + 1, first))
    for (round = first; round <= last + 1; round++) {
        x = x_of(round, first)
        if ((round - 1, area) in cut && (round <= last || last == rounds)) draw_cut(cut[round - 1, area], x)
        if (round <= last && (round, area) in cell) draw_cell(area, round, x)
    }
    close_group()
    y += 25
}

function draw_cell(area, round, x,    job, what, result) {
    job = cell_job[round, area]
    what = cell[round, area]
    open_group(job_name[job] ", " job_call[job] ", round " round ": " (what == "end" ? "ends with " job_result[job] " " results[job_result[job]] : what))
    if (what == "end") {
        result = job_result[job]
        put_rect(x + 2, 2, column - 4, 18, "end")
        put_text(x + 5, 4 + size, "column", fitted("ends " result " " results[result] "\nends " result, column - 8))
    } else {
        put_text(x + 6, 12, "column", what)
        put_rect(x + 1, 14, column - 2, 6, what " " job_name[job])
    }
    if (cell_job[round - 1, area] != job) put_rect(x, 1, 3, 20, "begin")
    close_group()
}

# A diamond at the end of the round before.
function draw_cut(names, x) {
    open_group("ended by a cancel between two rounds, with 3 cancelled:" names)
    put_path("cut", "M" x - 10 ",11l5,-6 5,6 -5,6z")
    close_group()
}

# ---- The totals of each job beside their bounds ----

function draw_totals(    area, n, row, k) {
    put_text(margin, y + 12, "bold", "Each job's totals beside their bounds")
    put_text(margin, y + 27, "", "\"4 of 8\" is 4, and at most 8: own and below in every session, the others where no other jobs are accepted than here.")
    y += 36
    rows = 0
    add_row("job", "call", "accepted", "ended by", "result", "rounds")
    for (k = 1; k <= 4; k++) table[rows, 6 + k] = counts[k]
    for (area = 0; area < areas; area++) for (n = 1; n <= jobs_of[area]; n++) add_job(job_at[area, n])
    for (k = 1; k <= 10; k++) place_table_column(k)
    for (row = 1; row <= rows; row++) draw_table_row(row)
    if (audited < jobs) {
        put_text(margin, y + 12, "", "There are no bounds: the audit program reads no more than 262,143 bytes of jobs.")
        y += 18
    }
    y += 12
}

function add_row(name, call, accepted, ended, result, total) {
    rows++
    table[rows, 1] = name
    table[rows, 2] = call
    table[rows, 3] = accepted
    table[rows, 4] = ended
    table[rows, 5] = result
    table[rows, 6] = total
}

function add_job(job,    k, info, result) {
    result = (job in job_end) ? job_result[job] " " results[job_result[job]] : "pending"
    add_row(job_name[job], job_call[job], "before round " (job_gap[job] + 1), job_end[job], result, bounded(job_rounds[job], job, "rounds"))
    split(job_info[job], info, " ")
    for (k = 1; k <= 4; k++) table[rows, 6 + k] = bounded(info[k + 2], job, counts[k])
}

function bounded(total, job, what) { return total (((job, what) in bound) ? " of " bound[job, what] : ", no bound") }

function place_table_column(k,    row, longest) {
    if (k == 1) table_x[1] = margin
    for (row = 1; row <= rows; row++) if (length(table[row, k]) > longest) longest = length(table[row, k])
    table_x[k + 1] = table_x[k] + int((longest + 2) * 6.63)
    wider(table_x[k + 1])
}

# A little more room where another area's jobs begin.
function draw_table_row(row,    k) {
    if (substr(table[row, 1], 1, 2) != substr(table[row - 1, 1], 1, 2)) y += 5
    put("<g" (row > 1 ? " class=\"job " table[row, 1] "\"" : "") ">")
    for (k = 1; k <= 10; k++) if (table[row, k] != "") put_text(table_x[k], y + 12, row == 1 || k == 1 ? "bold" : "", escaped(table[row, k]))
    close_group()
    y += 16
}

# ---- The legend ----

function draw_legend() {
    put_text(margin, y + 12, "bold", "Legend")
    y += 18
    draw_counts_legend()
    draw_blocks_legend()
    explain("done", "on a round's left edge, the chip's answer to what ran until then: pending, done, or failed")
    explain("failed 5", "after 5 bytes; dropped: pending, and with it the patience was over; (p), (d), (5): nothing ran")
    draw_calls_legend()
    explain("short", "prio priority, comp. compare, blank blank check, rel. release, canc. cancel, susp. suspended, or can")
    explain("", "suspend, clears only clears bits, res. resumed, t2 try 2, x3 three times in a row; ... at the end: cut.")
    explain("", "A pointer that rests on a block, a cell or a call shows the whole text.")
    y += 12
}

# A line of the legend; its sample, if it is no text, is drawn before, at the same height.
function explain(sample, text) {
    if (sample != "") put_text(13, y + 12, "", sample)
    put_text(90, y + 12, "", text)
    wider(100 + int(length(text) * 6.63))
    y += 17
}

function sample_count(what, text) {
    open_row(y - 6)
    put_rect(10, 14, 70, 6, what)
    close_group()
    explain("", what ": " text)
}

function sample_box(class, sample, text) {
    put_rect(10.5, y + 1.5, 69, 14, class)
    explain(sample, text)
}

function draw_counts_legend() {
    explain("A0 D0", "area 0, device 0. A column is a round: what stands there when the round is over")
    sample_count("own", "in this round the job's own request ran")
    sample_count("above", "another area's request ran on the device that the job needs, and it ranks above the job")
    sample_count("below", "the same, and it ranks below the job")
    sample_count("locked", "the device that the job needs was locked")
    sample_box("end", "ends 0", "this round ended the job: 0 OK, 1 failed, 2 inconsistent, 3 cancelled")
    put_rect(44, y, 3, 16, "begin")
    explain("", "left of a cell: the job's first round")
    put_path("cut", "M40," y + 8 "l5,-6 5,6 -5,6z")
    explain("", "between two rounds: a cancel ended the job, with 3 cancelled")
}

function draw_blocks_legend() {
    put_rect(10.5, y + 1.5, 69, 31, "area0")
    explain("A0 write", "a request of area 0 runs: it writes 4 bytes at physical address 32, and has 0 polls of patience 2;")
    explain("4@32 0/2", "try 2: once more after a failure; resumed: it was suspended; a side left open: also in the next band")
    sample_box("aside", "A0 1/2", "a suspended erase of area 0 with the polls that it keeps, while another request runs in its place")
}

function draw_calls_legend() {
    sample_box("accepted", "256+4", "calls, from top to bottom, before the round under them: 4 bytes from logical address 256. A cancel")
    explain("", "ends it: the job, at once; or its request runs on, and ends the job. Answered job info is not shown.")
    sample_box("refused", "no 11", "refused, with this number")
    sample_box("unreadable", "? 1 0", "a line that the bench cannot read; ~ stands for a byte that cannot be printed")
}
