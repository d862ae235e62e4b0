#!/bin/sh
# Tests the scripts on the Verilog of modules, and the core of examples/rtl: tools/test_rtl.sh
# [PROGRAM], a part of test_user.sh. The last line is `N passed, N failed`. Without Icarus Verilog
# only what needs none is tested, and a line says so.
root=$(CDPATH='' cd -- "$(dirname -- "$0")/.." && pwd) || exit 1
IXT=${1:-$root/crates/ixt/out/ixt}
case $IXT in
    /*) ;;
    *) IXT=$PWD/$IXT ;;
esac
if [ ! -x "$IXT" ]; then
    echo "test_rtl: there is no program $IXT: build it by ./prove, or name another one" >&2
    exit 1
fi
export IXT
user=$root/tools/user
examples=$root/examples
rtl=$examples/rtl
document=$root/docs/INTEGRATION.md
ports=$user/ports.py
compare=$user/rtl_compare.py
trace=$user/rtl_trace.py
wave=$user/wave_compare.py
room=$(mktemp -d "${TMPDIR:-/tmp}/ixt-test-rtl-XXXXXX") || exit 1
trap 'rm -rf "$room"' EXIT
trap 'exit 1' HUP INT TERM
cd "$room" || exit 1
passed=0
failed=0

pass() {
    passed=$((passed + 1))
}

fail() {
    failed=$((failed + 1))
    echo "failed: $*" >&2
}

# Whether the words after the status run with that status. What they write goes to `out` and `err`.
ends() {
    wanted=$1
    shift
    "$@" > out 2> err
    got=$?
    if [ "$got" = "$wanted" ]; then pass; else fail "$* ended with $got: $(head -n 1 err) $(tail -n 3 out)"; fi
}

# Whether the words are refused: status 1, a message that has the text, no traceback, and nothing on
# standard output.
refused() {
    text=$1
    shift
    ends 1 "$@"
    if [ ! -s out ] && grep -qF -- "$text" err && ! grep -q Traceback err; then
        pass
    else
        fail "$* does not say '$text': $(cat err)"
    fi
}

# Whether standard output has a text.
says() {
    if grep -qF -- "$1" out; then pass; else fail "no '$1' in: $(tail -n 3 out)"; fi
}

for script in "$ports" "$compare" "$trace" "$wave"; do
    ends 0 "$script" --help
    grep -q '^usage' out || fail "$script --help has no usage"
    ends 2 "$script" --no-such-option
done

# Tables and YAML files of all extensions on all cores

for extension in "$examples"/*.core_desc "$rtl"/*.core_desc; do
    for core in three four five; do
        sheet=$examples/$core.toml
        name=$(basename "$extension" .core_desc)-$core
        "$IXT" schedule "$extension" "$sheet" > "$name.report" 2> err || continue
        "$IXT" build "$extension" "$sheet" > "$name.v" || fail "$name is not built"
        ends 0 "$ports" table --core "$core" "$name.report" "$name.v"
        cp out "$name.table"
        ends 0 "$ports" yaml --core "$core" "$name.report" "$name.v"
        cp out "$name.yaml"
    done
done

# Whether the YAML files name the ports of the tables.
same_ports() {
    python3 - "$@" << 'END'
import sys, yaml
for path in sys.argv[1:]:
    with open(path) as file:
        modules = yaml.safe_load(file)["modules"]
    parts = [op.get(side, []) for it in modules for op in it["operations"] for side in ("inputs", "outputs")]
    names = [port["port"] for part in parts for port in part]
    names += [port["port"] for it in modules for port in it["enables"]] + ["clk"] * len(modules)
    with open(path.replace(".yaml", ".table")) as file:
        rows = [line.split() for line in file if line.startswith("  ")]
    if sorted(names) != sorted(row[0] for row in rows if row[0] != "Port"):
        sys.exit(f"{path} has other ports than its table")
END
}

if python3 -c 'import yaml' 2> err; then
    if same_ports ./*.yaml; then pass; else fail "the YAML files"; fi
else
    echo "not run: reading the YAML files, since Python has no yaml"
fi

# What docs/INTEGRATION.md shows: a table of ports, and a wrapper

shows() {
    python3 - "$document" auto-increment-five.table "$rtl/auto-increment.v" << 'END'
import sys
document, table, wrapper = (open(path).read() for path in sys.argv[1:])
table = table[table.index("ixt_lwinc") :].strip("\n").splitlines()
begin = document.index("\n```verilog\n") + 12
text = document[begin : document.index("\n```", begin)]
missing = [line for line in table if line and f"\n    {line}\n" not in document]
sys.exit(bool(missing) or text not in wrapper)
END
}

if shows; then pass; else fail "docs/INTEGRATION.md shows another table or another wrapper"; fi

# Bad inputs

report=auto-increment-five.report
modules=auto-increment-five.v
: > empty
printf '\377\376' > bytes
printf 'refused Usage\n' > refusal
sed 's/ in1,//' "$modules" > no-port.v
sed '/^  input \[31:0\] in1;/d' "$modules" > no-line.v
refused "No such file" "$ports" table --core five no-such-file "$modules"
refused "No such file" "$ports" table --core five "$report" no-such-file
refused "starts with" "$ports" table --core five empty "$modules"
refused "the program refused" "$ports" table --core five refusal "$modules"
refused "no text in UTF-8" "$ports" yaml --core five "$report" bytes
refused "has no module" "$ports" yaml --core five "$report" empty
refused "no Verilog text" "$ports" yaml --core five "$report" "$report"
refused "has no module" "$ports" table --core five "$report" square-root-five.v
refused "declares other ports" "$ports" table --core five "$report" no-port.v
refused "declares other ports" "$ports" table --core five "$report" no-line.v
refused "are not those of the report" "$ports" table --core five "$report" auto-increment-three.v
refused "No such file" "$ports" table --core five "$report" "$modules" -o no-such-folder/file
ends 2 "$ports" table "$report" "$modules"
ends 2 "$ports" table --core six "$report" "$modules"
ends 2 "$ports"

own=$examples/auto-increment
sheet=$examples/five.toml
refused "refused ReadFault" "$ports" bench no-such-file "$sheet" "$own.hex" 9
refused "refused Image" "$ports" bench "$own.core_desc" "$sheet" "$sheet" 9
refused "cannot be run" "$ports" bench --ixt no-such-program "$own.core_desc" "$sheet" "$own.hex" 9
refused "was not found" "$ports" bench --simulate --iverilog no-such-program "$own.core_desc" "$sheet" "$own.hex" 9
ends 2 "$ports" bench "$own.core_desc" "$sheet" "$own.hex" many
ends 0 "$ports" bench "$own.core_desc" "$sheet" "$own.hex" 9
says "endmodule"

refused "was not found" "$compare" --iverilog no-such-program
refused "was not found" "$compare" --vvp no-such-program --iverilog sh
ends 2 "$compare" no-such-wrapper
ends 2 "$compare" --plant no-such-plant
ends 2 "$compare" --extension "$own.core_desc"
ends 2 "$compare" --rows 200001
ends 0 "$compare" --list-plants
says "enable-always"

set -- "$rtl/auto-increment.v" "$own.core_desc" "$sheet" "$own.hex" "$examples/some.waits"
refused "was not found" "$trace" --iverilog no-such-program "$@" 60
ends 2 "$trace" "$@"
ends 2 "$trace" "$@" 200001

if ! command -v iverilog > /dev/null || ! command -v vvp > /dev/null; then
    echo "not run: the core of examples/rtl and test benches, since Icarus Verilog is missing"
    echo "$passed passed, $failed failed"
    [ "$failed" = 0 ]
    exit
fi

# Test benches from runs of programs

for extension in "$examples"/*.core_desc; do
    image=${extension%.core_desc}.hex
    [ -f "$image" ] || continue
    for core in three four five; do
        "$IXT" schedule "$extension" "$examples/$core.toml" > report 2> err || continue
        ends 0 "$ports" bench --simulate "$extension" "$examples/$core.toml" "$image" 300
        says ", 0 faults"
    done
done
for source in "$rtl"/*.s "$examples"/literature/*.s; do
    extension=${source%.s}.core_desc
    "$IXT" asm "$extension" "$source" > image.hex || fail "$source is not assembled"
    ends 0 "$ports" bench --simulate --stalls 1 "$extension" "$sheet" image.hex 300
    says ", 0 faults"
done
# (a sum that is a difference, and a bank that does not wait, are seen)
for change in 's/ + / - /' 's/if (en2)/if (en1)/'; do
    printf '#!/bin/sh\ncase $1 in build) "$IXT" "$@" | sed -e "%s" ;; *) exec "$IXT" "$@" ;; esac\n' "$change" > faulty
    chmod +x faulty
    ends 3 "$ports" bench --simulate --ixt "$room/faulty" "$examples/square-root.core_desc" "$sheet" "$examples/square-root.hex" 9
    says " in place of "
done

# The core beside `ixt run`

ends 0 "$compare"
cat out
ends 0 "$compare" --seed 1 --random 5 --rows 60 --jobs 2 --keep kept square-root
says "no difference"
[ -f kept/square-root/modules.v ] || fail "--keep leaves no files"
ends 0 "$compare" --extension "$own.core_desc" --wrapper "$rtl/auto-increment.v" --programs "$own.hex" --random 2
ends 0 "$compare" --plants
tail -n 1 out
for name in enable-always flush-fetch late-write-lost; do
    ends 3 "$compare" --plant "$name"
    says " differs"
done
sed 's/^module extension /module other /' "$rtl/auto-increment.v" > other.v
refused "iverilog failed" "$compare" --extension "$own.core_desc" --wrapper other.v --random 1
refused "No such file" "$compare" --extension "$own.core_desc" --wrapper no-such-file --random 1
refused "refused ReadFault" "$compare" --extension no-such-file --wrapper other.v --random 1
refused "no list of waits" "$compare" --waits "$own.core_desc" --random 1 square-root
refused "No such file" "$compare" --programs no-such-file --random 1 square-root
refused "the program refused" "$compare" --sheet "$own.hex" square-root
printf 'core = "four"\nperiod = 1000\n' > four.toml
refused "a core of 4 stages" "$compare" --sheet four.toml auto-increment

# The core's own traces, judged by the program

: > none.waits

# Whether the core with a wrapper makes lawful rows: a wrapper, and the files as `audit` takes them.
lawful() {
    wrapper=$1
    shift
    ends 0 "$trace" "$wrapper" "$@" 300
    cp out core.trace
    ends 0 "$IXT" audit "$@" core.trace
    [ "$(cat out)" = yes ] || fail "the rows of $wrapper with $3 and $4: $(cat out)"
}

for wrapper in "$rtl"/*.v; do
    name=$(basename "$wrapper" .v)
    extension=$examples/$name.core_desc
    [ -f "$extension" ] || extension=$rtl/$name.core_desc
    [ -f "$extension" ] || continue
    for source in "$examples/$name.hex" "$rtl/$name.s" "$examples/count-down.s" "$examples/sort.s"; do
        case $source in
            *.s) [ ! -f "$source" ] || "$IXT" asm "$extension" "$source" > image.hex ;;
            *) [ ! -f "$source" ] || cp "$source" image.hex ;;
        esac
        [ -f "$source" ] || continue
        lawful "$wrapper" "$extension" "$sheet" image.hex none.waits
        lawful "$wrapper" "$extension" "$sheet" image.hex "$examples/some.waits"
    done
done
# (an operand that is inverted gives another root, and a hold that is a cycle too long another row)
set -- "$examples/square-root.core_desc" "$sheet" "$examples/square-root.hex" none.waits
sed 's/\.in0(rd_x1)/.in0(~rd_x1)/' "$rtl/square-root.v" > wrong.v
ends 0 "$trace" wrong.v "$@" 300
cp out wrong.trace
ends 16 "$IXT" audit "$@" wrong.trace
says "refused Trace "
says " Commit"
sed 's/\.CYCLES(8)/.CYCLES(9)/' "$rtl/square-root.v" > slow.v
ends 0 "$trace" slow.v "$@" 300
cp out slow.trace
ends 16 "$IXT" audit "$@" slow.trace
says "refused Trace "
says " Hold"
refused "No such file" "$trace" no-such-file "$@" 300
refused "refused ReadFault" "$trace" "$rtl/square-root.v" no-such-file "$sheet" "$3" none.waits 300
refused "No such file" "$trace" "$rtl/square-root.v" "$1" "$sheet" "$3" no-such-file 300
refused "no list of waits" "$trace" "$rtl/square-root.v" "$1" "$sheet" "$3" "$1" 300
refused "iverilog failed" "$trace" other.v "$@" 300

# Dumps of ports beside the same modules, for all examples on all cores

ends 0 "$wave"
grep -v "the same$" out && fail "$wave differs"
ends 0 "$wave" --rows 0 "$own.core_desc" "$sheet" "$own.hex" "$examples/some.waits"
says "0 rows, the same"
refused "was not found" "$wave" --iverilog no-such-program
refused "was not found" "$wave" --vcd2fst no-such-program

echo "$passed passed, $failed failed"
[ "$failed" = 0 ]
