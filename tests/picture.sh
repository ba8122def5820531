#!/bin/sh
# Makes docs/spring.png again: GTKWave shows both signals of examples/spring.vcd, with a mark at each time that README tells, on a screen of its
# own (Xvfb) that nobody sees. Below it ImageMagick writes what happens at each mark and what each borrow of examples/spring.out gets, since a
# waveform has only the flag and the count.
# usage: tests/picture.sh [DISPLAY]   the number of a display that is free; the default is 77
set -eu
cd "$(dirname "$0")/.."
fail() {
    echo "picture: $1" >&2
    exit "${2-1}"
}
packages="apt-get install gtkwave xvfb imagemagick fonts-dejavu-core"
for tool in gtkwave Xvfb import convert; do
    command -v "$tool" >/dev/null || fail "$tool is missing: $packages" 2
done
convert -list font | grep -q 'Font: DejaVu-Sans$' || fail "the font DejaVu Sans is missing: $packages" 2
room=$(mktemp -d)
screen= viewer=
tidy() {
    [ -z "$viewer" ] || kill "$viewer" 2>/dev/null || :
    [ -z "$screen" ] || kill "$screen" 2>/dev/null || :
    rm -rf "$room"
}
trap tidy EXIT

# the times of the marks, each with what happens then
cat >"$room/marks" <<'END'
5 flag up
8 second reader counted
10 second reader turned away
13 count 0; release takes 5 at 15, puts 13 at 16
18 third reader counted
20 third reader turned away
21 flag down: release finished
END
while read -r time words; do
    grep -qx "#$time" examples/spring.vcd || fail "no signal changes at $time, where the mark is: $words"
done <"$room/marks"
# orange is readable both on GTKWave's black and on the white below it
orange=D87000
width=926

# GTKWave's settings: large letters, no list of modules, and a width (that of the screen) at which its ruler goes by tens
settings() {
    cat <<END
hide_sst 1
initial_window_x 940
initial_window_y 240
initial_signal_window_width 120
use_big_fonts 1
splash_disable 1
color_mark $orange
END
}

# both signals, the count in decimal, all times in view, and the marks; a mark's name is a blank, since any other would cover the ruler's numbers
script() {
    cat <<'END'
gtkwave::addSignalsFromList [list lock.exc "lock.rc\[63:0\]"]
gtkwave::highlightSignalsFromList [list "lock.rc\[63:0\]"]
gtkwave::/Edit/Data_Format/Decimal
gtkwave::/Edit/UnHighlight_All
gtkwave::/Time/Zoom/Zoom_Full
END
    awk '{ printf "gtkwave::setNamedMarker %c %d \" \"\n", 64 + NR, $1 }' "$room/marks"
}

# GTKWave as $room/waves.png, without its buttons. It ends at a file's last time, where the last 0 of rc has no width: the copy goes on to 38.
waves() {
    settings >"$room/settings"
    script >"$room/show.tcl"
    { cat examples/spring.vcd && echo '#38'; } >"$room/spring.vcd"
    Xvfb "$DISPLAY" -screen 0 940x240x24 >"$room/screen.log" 2>&1 &
    screen=$!
    sleep 2
    gtkwave -r "$room/settings" -S "$room/show.tcl" "$room/spring.vcd" >"$room/viewer.log" 2>&1 &
    viewer=$!
    # nothing says when the window is drawn
    sleep 8
    kill -0 "$viewer" || fail "GTKWave broke off: $(tail -n 1 "$room/viewer.log")"
    import -window root -crop "${width}x94+5+98" +repage "$room/waves.png"
}

# each mark's line in $room/marks after the column in which GTKWave has drawn it, so that the words below stand where its times are
places() {
    convert "$room/waves.png" -depth 8 txt:- |
        awk -F, -v orange="#$orange" 'index($0, orange) { seen[$1]++ } END { for (x in seen) if (seen[x] > 20) print x }' |
        sort -n >"$room/columns"
    [ "$(wc -l <"$room/columns")" -eq "$(wc -l <"$room/marks")" ] ||
        fail "GTKWave shows $(wc -l <"$room/columns") marks, and should show $(wc -l <"$room/marks")"
    paste -d ' ' "$room/columns" "$room/marks"
}

# the lane of the borrows, as ImageMagick is told to draw it: each value of examples/spring.out in a box at its time,
# which is one more than the row
lane() {
    tr -d '\r' <examples/spring.out | awk -v width="$width" '
        NR == FNR { if (FNR == 1) { x1 = $1; t1 = $2 } x2 = $1; t2 = $2; next }
        split($0, row, ",") && row[3] == 5 {
            x = x1 + (row[1] + 1 - t1) * (x2 - x1) / (t2 - t1)
            half = 3 + 6 * length(row[5])
            printf "fill %s roundrectangle %d,7 %d,27 4,4 ", (row[5] == 5 ? "#1F5FBF" : "#1A7F37"), x - half, x + half
            printf "fill white gravity North text %d,9 \"%s\" ", x - width / 2, row[5]
        }' "$room/places" -
}

# the words of the marks, told likewise, as a stair: each to the left of where its mark's line ends, since the lines further left have ended above
stair() {
    awk -v width="$width" -v orange="#$orange" '{
        x = $1; time = $2; y = 20 + 22 * NR
        sub(/^[0-9]+ [0-9]+ /, "")
        printf "fill %s rectangle %d,0 %d,%d rectangle %d,%d %d,%d ", orange, x, x, y + 10, x - 5, y + 10, x, y + 10
        printf "fill #202020 gravity NorthEast text %d,%d \"%d ns: %s\" ", width - x + 9, y, time, $0
    }' "$room/places"
}

DISPLAY=:${1-77}
export DISPLAY
waves
places >"$room/places"
convert -size "${width}x202" xc:white -font DejaVu-Sans -pointsize 15 \
    -draw "fill #202020 gravity NorthWest text 10,8 'borrow gets' $(lane) $(stair)" "$room/words.png"
convert "$room/waves.png" "$room/words.png" -append -depth 8 -strip docs/spring.png
echo "docs/spring.png: $(wc -c <docs/spring.png) bytes"
