#!/bin/sh
# Makes the pictures of the page that docs/SCHEDULES.md shows: an accepted and a refused schedule, wide and narrow. It wants chromium.
# From the top of the repository: sh examples/schedules/page/pictures.sh
set -eu
cd "$(dirname "$0")/../../.."
work=$(mktemp -d)
trap 'rm -rf "$work"' EXIT

# picture NAME EVENT WIDTH HEIGHT FILE
picture() {
    chromium --headless --no-sandbox --disable-gpu --hide-scrollbars --user-data-dir="$work/profile" --window-size="$3,$4" --screenshot="$PWD/docs/figures/$5" \
        "file://$work/page.html#$1/$2" 2>"$work/said" || { cat "$work/said" >&2; exit 1; }
}

./schedules --page "$work/page.html" hidden_cell_found hidden_cell_lost
picture hidden_cell_found 40 1200 1000 schedule_accepted_wide.png
picture hidden_cell_found 40 390 1500 schedule_accepted_narrow.png
picture hidden_cell_lost end 1200 1000 schedule_refused_wide.png
picture hidden_cell_lost end 390 1500 schedule_refused_narrow.png
