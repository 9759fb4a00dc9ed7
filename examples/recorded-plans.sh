#!/bin/sh
# The plans that the recorded runs and audits are made on (runs/, audits/, pictures/, crates/bench and crates/audit). With "--check" it compares them with the files instead.
set -eu
cd "$(dirname "$0")"
. ./plan.sh

# plan T, but for its device's length and patience and its areas' priorities
plan_t() {
    device 0 "$1" "$2"
    area "$3" 0 0 16
    area "$4" 256 16 16
    sub_area 0 0 0 16 32 4 8 1 8 2 1 0
    sub_area 1 0 32 16 16 4 4 1 4 2 0 0
}

# four devices of 64 bytes; area 0 lies on devices 0 and 1, areas 1 and 2 on device 2, area 3 on device 3
plan_four() {
    device 0 64 2
    device 64 64 3
    device 128 64 1
    device 192 64 4
    area 1 0 0 32
    area 5 256 32 16
    area 5 512 48 16
    area 0 0 64 32
    sub_area 0 0 0 16 32 4 8 1 8 4 1 0
    sub_area 0 1 64 16 32 4 8 1 8 4 0 1
    sub_area 1 2 128 16 16 4 4 1 4 2 2 0
    sub_area 2 2 160 16 16 4 4 1 4 2 0 0
    sub_area 3 3 192 32 64 8 16 2 8 2 0 2
}

# a chip that can suspend and one that cannot: areas 0, 1 and 2 on the first, areas 3 and 4 as 0 and 1 on the second
plan_both() {
    device 0 64 3 DS
    device 64 32 3
    area 1 0 0 8
    area 5 256 8 8
    area 9 512 16 8
    area 1 768 24 8
    area 5 1024 32 8
    sub_area 0 0 0 16 16 4 4 1 8 1 0 0
    sub_area 1 0 16 16 16 4 4 1 4 1 1 0
    sub_area 2 0 32 16 16 4 4 1 8 2 0 0
    sub_area 3 1 64 16 16 4 4 1 8 1 0 0
    sub_area 4 1 80 16 16 4 4 1 4 1 1 0
}

# a device of each mark: areas 0 and 1 on the one that only clears bits, area 2 on the one that can only suspend, area 3 on the third
plan_marks() {
    device 0 32 3 DF
    device 32 32 3 DS
    device 64 32 3
    area 1 0 0 8
    area 5 256 8 8
    area 1 512 16 8
    area 1 768 24 8
    sub_area 0 0 0 16 16 4 4 1 8 1 1 0
    sub_area 1 0 16 16 16 4 4 1 8 1 1 0
    sub_area 2 1 32 16 16 4 4 1 8 2 1 0
    sub_area 3 2 64 16 16 4 4 1 8 2 1 0
}

# plan W: its bursts, 24 and 12, are no powers of two
plan_w() {
    device 0 96 3
    area 1 0 0 48
    sub_area 0 0 12 12 24 4 12 2 6 4 0 0
}

# The largest image and store: devices of 65,536 bytes together, and a window that ends at 65,536. Area 1's window is the store's last byte, area 0's the 16 bytes before it; area 1 lies on the
# image's last 16 bytes, area 0 on the 16 before them.
# Its recorded run, from document 01: image byte 65,535 is 255 and store byte 65,535 is 0, so compare ends with 2 and blank check with 0. A write makes the image byte 0: blank check 2, compare 0. A read of image byte
# 65,534 makes the store byte 255: compare 2. A write makes the image byte 255 again: blank check and compare 0. Area 0's 16 bytes are two pieces of 8 each time; what area 1 does leaves its compare at 0.
plan_store() {
    device 0 65520 2
    device 65520 16 2
    area 1 0 65519 16
    area 1 256 65535 1
    sub_area 0 0 65504 16 16 4 8 1 8 1 0 0
    sub_area 1 1 65520 16 16 1 1 1 1 1 0 0
}

# For the audit: a device of each mark and a fourth. Area 0 lies on devices 0 and 1 by turns: its first and third sub-area touch in the image but not in the area, its third and fourth in both. Area 1 has
# its priority and lies on device 1. Area 2 lies apart on device 2 and then where device 3 begins, just behind device 2's end; area 3, without a window, on device 2, the higher bytes first; area 4 on device 3,
# with bursts that are no powers of two.
plan_audited() {
    device 0 64 2
    device 64 64 3 DS
    device 128 64 5 DF
    device 192 96 1
    area 3 0 0 32
    area 3 256 32 16
    area 7 4096 48 24
    area 1 65536 72 0
    area 9 1000 80 24
    sub_area 0 0 0 16 32 4 8 1 8 2 1 0
    sub_area 0 1 64 16 16 4 4 2 4 1 2 1
    sub_area 0 0 32 8 16 8 16 1 16 2 0 3
    sub_area 0 0 48 16 16 4 8 1 8 1 1 0
    sub_area 1 1 80 16 16 4 4 1 4 3 0 0
    sub_area 2 2 128 16 16 4 16 4 8 1 4 2
    sub_area 2 2 176 16 16 4 16 4 8 1 0 1
    sub_area 2 3 192 8 8 8 8 4 8 2 1 1
    sub_area 3 2 160 16 16 16 16 16 16 1 0 255
    sub_area 3 2 144 16 32 16 16 16 16 1 7 15
    sub_area 4 3 216 24 48 6 12 3 9 3 2 0
}

# For the pictures: eight areas on four devices of all marks; area 0 lies on devices 0 and 2, area 6 on devices 2 and 3.
plan_eight() {
    device 0 256 6 DS
    device 256 256 8 DF
    device 512 256 2
    device 768 256 5
    area 1 0 0 64
    area 5 1000 64 64
    area 9 2000 128 64
    area 1 3000 192 64
    area 5 4000 256 64
    area 5 5000 320 64
    area 2 6000 384 64
    area 7 7000 448 64
    sub_area 0 0 0 32 64 4 16 1 16 3 1 1
    sub_area 0 2 512 32 64 4 16 1 16 2 1 0
    sub_area 1 0 96 32 32 4 8 1 8 3 2 0
    sub_area 2 0 192 32 32 4 8 1 8 2 0 0
    sub_area 3 1 256 64 128 8 16 2 16 2 1 1
    sub_area 4 1 384 32 32 4 8 1 8 4 1 0
    sub_area 5 2 576 32 32 4 8 1 8 3 2 1
    sub_area 6 2 672 32 32 4 8 1 8 2 0 0
    sub_area 6 3 768 32 64 4 8 1 8 4 1 1
    sub_area 7 3 896 32 32 4 8 1 8 4 1 0
}

# keep FILE: writes standard input to the file, or compares the two
keep() {
    if [ "$mode" = --check ]; then
        cmp - "$1"
    else
        mkdir -p "$(dirname "$1")"
        cat >"$1"
    fi
}

mode=${1:-write}
plan_t 64 2 1 5 | keep plan-t/plan.bin
plan_t 64 2 1 5 | keep ../crates/bench/data/plan.bin
plan_t 64 2 1 5 | keep runs/lines/plan.bin
plan_t 64 2 1 5 | keep runs/line-length/plan.bin
plan_t 64 2 3 3 | keep runs/equals/plan.bin
plan_four | keep runs/devices/plan.bin
plan_both | keep runs/suspends/plan.bin
plan_marks | keep runs/clears/plan.bin
plan_w | keep runs/bursts/plan.bin
{ plan_t 64 2 1 5; wear 0 7; } | keep runs/wear/plan.bin
{ plan_t 64 2 1 5; wear 0 5; wear 0 6; } | keep runs/wear-repeated/plan.bin
plan_store | keep runs/store/plan.bin
plan_t 64 0 1 5 | keep runs/refused/plan.bin
plan_t 65537 2 1 5 | keep runs/sum/plan.bin
head -c 4097 /dev/zero | keep runs/long/plan.bin
plan_t 64 2 1 5 | keep audits/plan-t/plan.bin
plan_t 64 2 1 5 | keep audits/lines/plan.bin
plan_audited | keep audits/marks/plan.bin
plan_t 64 0 1 5 | keep audits/refused/plan.bin
plan_t 65537 2 1 5 | keep audits/sum/plan.bin
plan_eight | keep pictures/eight-areas/plan.bin
plan_t 64 2 1 5 | keep ../crates/audit/data/plan.bin
