#!/bin/sh
# Tests the scripts of tools/user over all examples, with bad inputs, and with a trace of 200,000
# rows: tools/test_user.sh [PROGRAM]. Without a word it takes the proved program that ./prove or the
# gate has built. The last line is `N passed, N failed`. What needs GNU parallel, Yosys or Icarus
# Verilog is left out where they are missing, and a line says so.
root=$(CDPATH='' cd -- "$(dirname -- "$0")/.." && pwd) || exit 1
program=${1:-$root/crates/ixt/out/ixt}
case $program in
    /*) ;;
    *) program=$PWD/$program ;;
esac
if [ ! -x "$program" ]; then
    echo "test_user: there is no program $program: build it by ./prove, or name another one" >&2
    exit 1
fi
user=$root/tools/user
examples=$root/examples
IXT=$program
export IXT
room=$(mktemp -d "${TMPDIR:-/tmp}/ixt-test-user-XXXXXX") || exit 1
trap 'rm -rf "$room"' EXIT
trap 'exit 1' HUP INT TERM
cd "$room" || exit 1
passed=0
failed=0
slow=5 # processor seconds that a trace of 200,000 rows may take

pass() {
    passed=$((passed + 1))
}

fail() {
    failed=$((failed + 1))
    echo "failed: $*" >&2
}

# Whether the words after the status run with that status. What they write goes to `out` and `err`.
ends() {
    wanted=$1
    shift
    "$@" > out 2> err
    got=$?
    if [ "$got" = "$wanted" ]; then
        pass
    else
        fail "$* ended with $got in place of $wanted: $(head -n 1 err)"
    fi
}

# Whether the words are refused: status 1, a line that has the text, no traceback, and nothing on
# standard output.
refused() {
    text=$1
    shift
    "$@" > out 2> err
    got=$?
    if [ "$got" = 1 ] && [ ! -s out ] && [ "$(wc -l < err)" = 1 ] && grep -qF -- "$text" err; then
        pass
    else
        fail "$* is not refused with '$text' but ends with $got: $(head -n 1 err)"
    fi
}

# Whether a picture is XML, fits on a page, and has no text over another one.
fits() {
    if "$root/tools/check_pictures.py" "$@"; then pass; else fail "the picture $*"; fi
}

missing() {
    echo "not run: $*"
}

# Help

for script in trace_summary trace_picture schedule_picture sweep_picture sheet_check delays_from_yosys explore; do
    ends 0 "$user/$script.py" --help
    grep -q '^usage' out || fail "$script.py --help has no usage"
    ends 2 "$user/$script.py" --no-such-option
done

# Schedules of all extensions on all datasheets

for extension in "$examples"/*.core_desc; do
    for sheet in "$examples"/*.toml; do
        name=$(basename "$extension" .core_desc)-$(basename "$sheet" .toml)
        "$program" schedule "$extension" "$sheet" > "$name.report"
        status=$?
        case $sheet in
            */template.toml) [ "$status" = 0 ] || fail "$name ends with $status" ;;
        esac
        ends 0 "$user/schedule_picture.py" "$name.report" -o "$name.svg"
        fits "$name.svg"
        "$user/sheet_check.py" "$extension" "$sheet" > out 2> err
        case $? in
            0 | 3) pass ;;
            *) fail "sheet_check.py $name: $(cat err)" ;;
        esac
    done
    ends 0 "$user/sheet_check.py" "$extension" "$examples/template.toml"
    name=$(basename "$extension" .core_desc)
    "$program" sweep "$extension" "$examples/template.toml" > "$name.sweep" || fail "$name is not swept"
    ends 0 "$user/sweep_picture.py" "$name.sweep" -o "$name.svg"
    fits "$name.svg"
done
: > none.sweep
refused "has no behaviour" "$user/sweep_picture.py" none.sweep
printf 'refused Usage\n' > bad.sweep
refused "the program refused" "$user/sweep_picture.py" bad.sweep
printf 'sweep a least 5\n' > bad.sweep
refused "do not fit" "$user/sweep_picture.py" bad.sweep
refused "no behaviour is named" "$user/sweep_picture.py" dot-product.sweep --behaviour other

# Runs of all programs: each extension's own, and those of the base set

: > none.waits

printf 'yes\n' > yes

# Whether a trace is judged to be that of a lawful run: its files, as `audit` takes them. One that is
# longer than a file may be is left out.
lawful() {
    [ "$(wc -c < "$5")" -le 1048576 ] || return 0
    ends 0 "$program" audit "$@"
    if cmp -s out yes; then pass; else fail "audit $* says $(cat out)"; fi
}

# Runs a program on a core with an extension, has its trace judged, and gives it to all scripts. A
# run that is refused is refused by them.
run_all_scripts() {
    extension=$1 sheet=$2 image=$3 source=$4
    name=run-$(basename "$extension" .core_desc)-$(basename "$sheet" .toml)-$(basename "$source")
    if ! "$program" run "$extension" "$sheet" "$image" "$examples/some.waits" 3000 > trace; then
        refused "the program refused" "$user/trace_summary.py" trace
        refused "the program refused" "$user/trace_picture.py" trace
        return
    fi
    lawful "$extension" "$sheet" "$image" "$examples/some.waits" trace
    ends 0 "$user/trace_summary.py" trace --source "$source"
    # (the cycles of all causes come to all cycles)
    awk '/^cycles +[0-9]+$/{cycles = $2} /^cycles  share/{table = 1; next} /^$/{table = 0} table{sum += $1} END{exit sum != cycles}' out ||
        fail "the cycles of $name do not add up"
    ends 0 "$user/trace_picture.py" trace --source "$source" -o "$name.svg"
    fits "$name.svg"
    ends 0 "$user/trace_picture.py" trace --kanata
    head -n 1 out | grep -q 'Kanata	0004' || fail "$name has no log"
}

# The extension of an example, or one whose instructions the example does not have.
extension_of() {
    if [ -f "$1.core_desc" ]; then
        echo "$1.core_desc"
    else
        echo "$examples/wide-add.core_desc"
    fi
}

for sheet in "$examples"/*.toml; do
    for image in "$examples"/*.hex; do
        run_all_scripts "$(extension_of "${image%.hex}")" "$sheet" "$image" "$image"
    done
    for source in "$examples"/*.s; do
        extension=$(extension_of "${source%.s}")
        "$program" asm "$extension" "$source" > source.hex || fail "$source is not assembled"
        run_all_scripts "$extension" "$sheet" source.hex "$source"
    done
    run_all_scripts "$examples/two-decoupled.core_desc" "$sheet" "$examples/first-run.hex" "$examples/first-run.hex"
done

# Traces that are changed

# Whether each byte of a trace, changed to another one, is refused, with a line and nothing else: its
# files, as `audit` takes them.
fragile() {
    if python3 - "$program" "$@" << 'END'
import os, re, subprocess, sys
from concurrent.futures import ThreadPoolExecutor

program, *files, trace = sys.argv[1:]
with open(trace, "rb") as file:
    text = file.read()

def refused(at):
    name = f"changed-{at}"
    with open(name, "wb") as file:
        file.write(text[:at] + bytes([text[at] ^ 1]) + text[at + 1 :])
    words = [program, "audit", *files, name]
    done = subprocess.run(words, stdout=subprocess.PIPE, stderr=subprocess.DEVNULL)
    os.remove(name)
    line = re.fullmatch(rb"refused Trace [1-9][0-9]* [A-Z][a-z]+\n", done.stdout)
    return done.returncode == 16 and line is not None

with ThreadPoolExecutor(os.cpu_count()) as workers:
    answers = list(workers.map(refused, range(len(text))))
missed = [at for at, answer in enumerate(answers) if not answer]
print(f"{len(text)} bytes of a trace are changed, {len(missed)} of them not refused {missed[:9]}")
sys.exit(bool(missed) or not text)
END
    then pass; else fail "changes of a trace of $3"; fi
}

# A run that is short, has its trace judged, and each change of it.
is_judged() {
    "$program" run "$1" "$2" "$3" "$4" "$5" > trace || fail "run $*"
    lawful "$1" "$2" "$3" "$4" trace
    fragile "$1" "$2" "$3" "$4" trace
}

is_judged "$examples/wide-add.core_desc" "$examples/three_f.toml" "$examples/first-run.hex" none.waits 20
is_judged "$examples/two-decoupled.core_desc" "$examples/three.toml" "$examples/two-decoupled.hex" "$examples/some.waits" 14
is_judged "$examples/auto-increment.core_desc" "$examples/five.toml" "$examples/auto-increment.hex" "$examples/some.waits" 18
lawful "$examples/wide-add.core_desc" "$examples/three.toml" "$examples/first-run.hex" \
    "$examples/some.waits" "$examples/first-run.trace"
"$program" run "$examples/first-run.hex" 20 > trace
if cmp -s trace "$examples/first-run.trace"; then pass; else fail "examples/first-run.trace is another trace"; fi

# A run with an interrupt line

"$program" run "$examples/wide-add.core_desc" "$examples/five.toml" "$examples/count-interrupts.hex" \
    "$examples/some.waits" "$examples/some.lines" 200 > trace || fail "the run with an interrupt line"
ends 0 "$user/trace_summary.py" trace --source "$examples/count-interrupts.s"
grep -q ' Interrupt: ' out || fail "no cycle is lost to an interrupt"
ends 16 "$program" audit "$examples/wide-add.core_desc" "$examples/five.toml" \
    "$examples/count-interrupts.hex" "$examples/some.waits" trace
grep -q 'with an interrupt line is not judged' err || fail "no word on the interrupt line of a trace"
ends 0 "$user/trace_picture.py" trace --source "$examples/count-interrupts.s" -o interrupts.svg
fits interrupts.svg

# Extensions of the literature

ends 0 "$user/literature.py" --no-yosys --check "$root/docs/LITERATURE.md"

# Bad inputs

"$program" run "$examples/one-wait.hex" 20 > good.trace
"$program" schedule "$examples/wide-add.core_desc" "$examples/five.toml" > good.report
"$program" seq "$examples/wide-add.core_desc" "$examples/one-wait.hex" 5 > steps
"$program" run "$examples/wide-add.core_desc" "$examples/five.toml" "$examples/one-wait.hex" none.waits 0 > no-rows.trace
: > empty
printf '\377\376' > bytes
head -n 5 good.trace > cut.trace
sed 2d good.trace > gap.trace
sed 's/ r0$//' good.trace > no-mark.trace
sed '/^= 0 /d' good.trace > no-line.trace
sed '1s/ -$//' good.trace > two-stages.trace
sed 's/Operand/Operant/' good.trace > hold.trace
printf 'refused Usage\n' > refusal

for script in trace_summary.py trace_picture.py 'trace_picture.py --kanata'; do
    # (words on purpose: a script and its option)
    # shellcheck disable=SC2086
    set -- $script
    first=$user/$1
    shift
    refused "No such file" "$first" "$@" no-such-file
    refused "Is a directory" "$first" "$@" "$room"
    refused "no text in UTF-8" "$first" "$@" bytes
    refused "ends before its state" "$first" "$@" empty
    refused "ends before its state" "$first" "$@" cut.trace
    refused "row 1 is missing" "$first" "$@" gap.trace
    refused "does not belong here" "$first" "$@" no-mark.trace
    refused "is missing" "$first" "$@" no-line.trace
    refused "is no row of a trace" "$first" "$@" two-stages.trace
    refused "is no row of a trace" "$first" "$@" hold.trace
    refused "one instruction at a time" "$first" "$@" steps
    refused "the program refused the run" "$first" "$@" refusal
    refused "does not belong here" "$first" "$@" good.report
    refused "the source has" "$first" "$@" good.trace --source "$examples/first-run.hex"
    refused "No such file" "$first" "$@" good.trace --source no-such-file
    refused "No such file" "$first" "$@" good.trace -o no-such-folder/file
done
ends 0 "$user/trace_summary.py" no-rows.trace
refused "has 0 rows" "$user/trace_picture.py" no-rows.trace
printf '0 - - - stop Fetch\nstate\npc 00000000\n' > empty-row.trace
ends 0 "$user/trace_picture.py" empty-row.trace -o empty-row.svg
refused "none from row 99" "$user/trace_picture.py" good.trace --from 99
ends 2 "$user/trace_picture.py" good.trace --rows 41
ends 2 "$user/trace_picture.py" good.trace --rows 0
ends 2 "$user/trace_summary.py" good.trace --top none

printf 'longnail report 1\nperiod 9\n' > no-behaviour.report
grep -v '^cost' good.report > no-cost.report
sed 's/^edge 0 2/edge 0 9/' good.report > edge.report
sed 's/^op 2 add/op 2 plus/' good.report > kind.report
sed 's/^op 1 /op 3 /' good.report > number.report
sed '$d' good.report > cut.report
sed 's/^period 1000/period 0/' good.report > period.report
printf 'refused Usage\n' > refusal.report
refused "No such file" "$user/schedule_picture.py" no-such-file
refused "starts with" "$user/schedule_picture.py" empty
refused "starts with" "$user/schedule_picture.py" good.trace
refused "no text in UTF-8" "$user/schedule_picture.py" bytes
refused "there is no report" "$user/schedule_picture.py" refusal.report
refused "no behaviour" "$user/schedule_picture.py" no-behaviour.report
refused "has no cost" "$user/schedule_picture.py" no-cost.report
refused "is no line of a behaviour" "$user/schedule_picture.py" edge.report
refused "is no line of a behaviour" "$user/schedule_picture.py" kind.report
refused "is no line of a behaviour" "$user/schedule_picture.py" number.report
refused "ends inside" "$user/schedule_picture.py" cut.report
refused "the period" "$user/schedule_picture.py" period.report
refused "no behaviour is named" "$user/schedule_picture.py" good.report --behaviour none

printf 'core = "five"\n' > no-period.toml
refused "refused ReadFault" "$user/sheet_check.py" no-such-file "$examples/five.toml"
refused "refused Extension" "$user/sheet_check.py" empty "$examples/five.toml"
refused "refused Sheet Number period" "$user/sheet_check.py" "$examples/wide-add.core_desc" no-period.toml
refused "cannot be run" "$user/sheet_check.py" --ixt no-such-program "$examples/wide-add.core_desc" "$examples/five.toml"
ends 2 "$user/sheet_check.py" "$examples/wide-add.core_desc"
ends 3 "$user/sheet_check.py" "$examples/dot-product.core_desc" "$examples/three.toml"

# A trace of 200,000 rows

"$program" run "$examples/store-loop.hex" 200000 > long.trace

# Whether the words take less than the processor seconds that are given.
is_quick() {
    if python3 - "$slow" "$@" << 'END'
import resource, subprocess, sys
most, words = float(sys.argv[1]), sys.argv[2:]
status = subprocess.run(words, stdout=subprocess.DEVNULL).returncode
used = resource.getrusage(resource.RUSAGE_CHILDREN)
spent = used.ru_utime + used.ru_stime
print(f"{spent:.2f} processor seconds: {' '.join(word.rsplit('/', 1)[-1] for word in words)}")
sys.exit(status != 0 or spent >= most)
END
    then pass; else fail "$* is slow"; fi
}

is_quick "$user/trace_summary.py" long.trace --source "$examples/store-loop.hex"
is_quick "$user/trace_picture.py" long.trace --from 199970
is_quick "$user/trace_picture.py" long.trace --kanata -o long.kanata

# Many runs

explore() {
    "$user/explore.py" --extensions "$examples/dot-product.core_desc" "$examples/two-decoupled.core_desc" \
        --sheets "$examples/three.toml" "$examples/five.toml" --programs "$examples/dot-product.hex" "$examples/count-down.s" "$@"
}

# A search path without GNU parallel, and one with another program of its name.
mkdir bare other
ln -s "$(python3 -c 'import sys; print(sys.executable)')" bare/python3
printf '#!/bin/sh\necho "parallel of another kind"\n' > other/parallel
chmod +x other/parallel
refused "was not found" env PATH="$room/bare" python3 "$user/explore.py" --extensions "$examples/wide-add.core_desc" \
    --sheets "$examples/five.toml" --programs "$examples/one-wait.hex" --folder no-runs
refused "is not GNU parallel" explore --folder no-runs --parallel "$room/other/parallel"
refused "no such file" explore --folder no-runs --waits no-such-file
ends 2 explore
ends 2 explore --folder no-runs --cycles 200001
ends 0 "$user/explore.py" --one "$examples/wide-add.core_desc" "$examples/five.toml" "$examples/one-wait.hex"
[ ! -e no-runs ] || fail "a refused explore.py left a folder"

if command -v parallel > /dev/null && parallel --version 2> /dev/null | grep -q '^GNU parallel'; then
    ends 0 explore --folder runs --sshlogin 2/:
    grep -q '^8 runs in .*, 4 of them refused' out || fail "explore.py says $(cat out)"
    [ "$(wc -l < runs/table.tsv)" = 9 ] && [ "$(wc -l < runs/joblog)" = 9 ] || fail "the table or the log of explore.py is not whole"
    fits runs/plot.svg
    cp runs/table.tsv whole.tsv
    refused "has runs already" explore --folder runs
    refused "has runs of other files" explore --folder runs --resume --programs "$examples/sort.s"
    # A run that was cut off: two jobs are missing, in the log and in the lines.
    sed -i '8,$d' runs/joblog
    for number in $(cut -f 1 runs/joblog | sed 1d); do : > "kept-$number"; done
    for number in 1 2 3 4 5 6 7 8; do [ -e "kept-$number" ] || rm "runs/lines/$number"; done
    ends 0 explore --folder runs --resume
    if cmp -s whole.tsv runs/table.tsv && [ "$(wc -l < runs/joblog)" = 9 ]; then pass; else fail "a resumed explore.py has another table"; fi
    # (a job that dies is told of, and the others stand in the table)
    printf '#!/bin/sh\ncase $* in build*three*) exit 9 ;; esac\nexec "$IXT" "$@"\n' > faulty
    chmod +x faulty
    "$user/explore.py" --ixt "$room/faulty" --extensions "$examples/wide-add.core_desc" --sheets "$examples/three.toml" "$examples/five.toml" \
        --programs "$examples/one-wait.hex" --folder faulty-runs > out 2> err
    if [ $? = 1 ] && grep -q '1 runs gave no line; number 1: .*status 9' err; then pass; else fail "a job that dies: $(cat err)"; fi
else
    missing "runs of explore.py, since GNU parallel is missing"
fi

# Delays

refused "was not found" "$user/delays_from_yosys.py" --yosys no-such-program
ends 2 "$user/delays_from_yosys.py" --kinds add,cast
ends 2 "$user/delays_from_yosys.py" --width 129
if command -v yosys > /dev/null; then
    refused "No such file" "$user/delays_from_yosys.py" --liberty no-such-file
    refused "no liberty file" "$user/delays_from_yosys.py" --liberty good.report
    for words in "" "--liberty $user/cases/seven_cells.lib"; do
        # shellcheck disable=SC2086
        ends 0 "$user/delays_from_yosys.py" --width 8 --entries 16 $words
        cp out yosys.toml
        ends 0 "$program" schedule "$examples/wide-add.core_desc" yosys.toml
        ends 0 "$user/sheet_check.py" "$examples/dot-product.core_desc" yosys.toml
    done
else
    missing "delays_from_yosys.py, since Yosys is missing"
fi

# Programs in C

if "$root/tools/test_c.sh" "$program"; then pass; else fail "tools/test_c.sh"; fi

# The Verilog in a core

if "$root/tools/test_rtl.sh" "$program"; then pass; else fail "tools/test_rtl.sh"; fi

# The documents

if "$root/tools/tutorial_scripts.py" check "$program"; then pass; else fail "commands of docs/TUTORIAL.md"; fi
if "$root/tools/make_pictures.sh" "$program" "$room/pictures"; then pass; else fail "make_pictures.sh"; fi
for picture in pictures/*.svg; do
    if cmp -s "$picture" "$root/docs/$picture"; then pass; else fail "docs/$picture is not what tools/make_pictures.sh makes"; fi
    fits "$root/docs/$picture"
done

echo "$passed passed, $failed failed"
[ "$failed" = 0 ]
