# Writes the records of a plan as bytes: source this file, then call device, area, sub_area and wear with a record's fields.

# le VALUE WIDTH: the number in WIDTH bytes, the least significant first
le() {
    value=$1
    width=$2
    while [ "$width" -gt 0 ]; do
        printf "\\$(printf '%03o' $((value % 256)))"
        value=$((value / 256))
        width=$((width - 1))
    done
}

# device START LENGTH PATIENCE [MARK]: DS for a chip that can suspend, DF for one that only clears bits and can suspend too
device() {
    printf '%s' "${4:-DV}"
    le "$1" 4; le "$2" 4; le "$3" 2
}

# area PRIORITY START WINDOW WINDOW_LENGTH
area() {
    printf 'AR'
    le "$1" 2; le "$2" 4; le "$3" 4; le "$4" 4
}

# sub_area AREA DEVICE START SECTOR BURST PAGE PAGE_BURST SMALLEST_READ LARGEST_READ COUNT WRITE_RETRIES ERASE_RETRIES
sub_area() {
    printf 'SB'
    le "$1" 1; le "$2" 1; le "$3" 4
    le "$4" 4; le "$5" 4; le "$6" 4; le "$7" 4; le "$8" 4; le "$9" 4
    shift 9
    le "$1" 4; le "$2" 1; le "$3" 1
}

# wear SUB_AREA ENDURANCE: the cycles that each sector of the sub-area endures, behind all other records
wear() {
    printf 'WR'
    le "$1" 1; le "$2" 4
}
