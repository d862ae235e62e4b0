#!/bin/sh
# Makes the pictures of the documents again: tools/make_pictures.sh [PROGRAM [FOLDER]]. Without
# words it takes the launcher ./ixt and writes to docs/pictures. The picture of a dump,
# average-wave.png, is a screen of GTKWave, taken by hand.
root=$(CDPATH='' cd -- "$(dirname -- "$0")/.." && pwd) || exit 1
program=${1:-$root/ixt}
pictures=${2:-$root/docs/pictures}
user=$root/tools/user
mkdir -p "$pictures" || exit 1
pictures=$(CDPATH='' cd -- "$pictures" && pwd) || exit 1
case $program in
    /*) ;;
    *) program=$PWD/$program ;;
esac
room=$(mktemp -d "${TMPDIR:-/tmp}/ixt-pictures-XXXXXX") || exit 1
trap 'rm -rf "$room"' EXIT
trap 'exit 1' HUP INT TERM
python3 "$root/tools/tutorial_scripts.py" files "$room" && cd "$room" || exit 1

printf 'core = "three"\nperiod = 1000\n[delay]\nmul = 600\nadd = 600\n' > store.toml
failed=0

# Draws the report of `schedule` on these words (a refusal has its report too) as the picture with
# this name.
schedule_picture() {
    name=$1
    shift
    "$program" schedule "$@" > report
    "$user/schedule_picture.py" report -o "$pictures/$name.svg" || failed=1
}

schedule_picture average-schedule average.core_desc core.toml
schedule_picture average-no-schedule average.core_desc fast.toml
schedule_picture store-product-no-schedule "$root/examples/store-product.core_desc" store.toml

"$program" sweep "$root/examples/dot-product.core_desc" "$root/examples/template.toml" > sweep &&
    "$user/sweep_picture.py" sweep -o "$pictures/dot-product-sweep.svg" || failed=1

"$program" run average.core_desc core.toml average.hex none.waits 20 > trace &&
    "$user/trace_picture.py" trace --source average.s --name average.s -o "$pictures/average-run.svg" || failed=1

if command -v parallel > /dev/null; then
    "$user/explore.py" --ixt "$program" --folder runs --extensions average.core_desc --programs average.s "$root/examples/sort.s" \
        --sheets "$root/examples/three.toml" "$root/examples/four.toml" "$root/examples/five.toml" > /dev/null &&
        cp runs/plot.svg "$pictures/average-cores.svg" || failed=1
else
    echo "make_pictures: GNU parallel is missing, so average-cores.svg is as it was" >&2
fi
exit $failed
