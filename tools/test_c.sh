#!/bin/sh
# Tests the scripts for programs in C: tools/test_c.sh [PROGRAM], a part of test_user.sh. The last
# line is `N passed, N failed`. Without both compilers only what needs none is tested.
root=$(CDPATH='' cd -- "$(dirname -- "$0")/.." && pwd) || exit 1
IXT=${1:-$root/crates/ixt/out/ixt}
case $IXT in
    /*) ;;
    *) IXT=$PWD/$IXT ;;
esac
if [ ! -x "$IXT" ]; then
    echo "test_c: there is no program $IXT: build it by ./prove, or name another one" >&2
    exit 1
fi
export IXT
user=$root/tools/user
examples=$root/examples
image=$user/c_to_image.py
cycles=$user/c_cycles.py
room=$(mktemp -d "${TMPDIR:-/tmp}/ixt-test-c-XXXXXX") || exit 1
trap 'rm -rf "$room"' EXIT
trap 'exit 1' HUP INT TERM
cd "$room" || exit 1
passed=0
failed=0

pass() {
    passed=$((passed + 1))
}

fail() {
    failed=$((failed + 1))
    echo "failed: $*" >&2
}

# Whether the words after the status run with that status. What they write goes to `out` and `err`.
ends() {
    wanted=$1
    shift
    "$@" > out 2> err
    got=$?
    if [ "$got" = "$wanted" ]; then pass; else fail "$* ended with $got: $(head -n 1 err)"; fi
}

# Whether the words are refused: status 1, a message that has the text, no traceback, and nothing on
# standard output.
refused() {
    text=$1
    shift
    ends 1 "$@"
    if [ ! -s out ] && grep -qF -- "$text" err && ! grep -q Traceback err; then
        pass
    else
        fail "$* does not say '$text': $(cat err)"
    fi
}

for script in "$image" "$cycles"; do
    ends 0 "$script" --help
    grep -q '^usage' out || fail "$script --help has no usage"
    ends 2 "$script" --no-such-option
done
ends 2 "$image"
ends 2 "$image" --header "$examples/wide-add.core_desc" some.c

# Headers

for name in auto-increment dot-product square-root square-root-apart store-product two-decoupled \
    wide-add wide-multiply; do
    ends 0 "$image" --header "$examples/$name.core_desc" -o "made-$name.h"
done
refused "writes PC" "$image" --header "$examples/indirect-jump.core_desc"
refused "block zol writes PC" "$image" --header "$examples/zero-overhead-loop.core_desc"
refused "refused ReadFault" "$image" --header no-such-file
refused "refused Extension" "$image" --header "$examples/five.toml"
refused "cannot be run" "$image" --ixt no-such-program --header "$examples/wide-add.core_desc"

# Images

echo 'int main(void) { return 1; }' > one.c
refused "was not found" "$image" --cc no-such-compiler one.c
refused "no such file" "$image" no-such-file.c
refused "was not found" "$cycles" --cc no-such-compiler
if ! command -v riscv64-unknown-elf-gcc > /dev/null || ! command -v gcc > /dev/null; then
    echo "not run: programs in C, since riscv64-unknown-elf-gcc or gcc is missing"
    echo "$passed passed, $failed failed"
    [ "$failed" = 0 ]
    exit
fi

# Whether an image ends at its break with the result in x10, on a core with an extension.
gives() {
    ends 0 "$IXT" seq "$2" "$3" 1000
    if grep -qx 'stop Ebreak' out && grep -qx "x10 $1" out; then
        pass
    else
        fail "$3 does not end with $1: $(grep -E '^(stop|x10)' out | tr '\n' ' ')"
    fi
}

ends 0 "$image" one.c -o one.hex
gives 00000001 "$examples/wide-add.core_desc" one.hex
printf '.globl main\nmain: addi a0, zero, N\n ret\n' > main.S
ends 0 "$image" -D N=77 main.S --elf main.elf -o main.hex
gives 0000004d "$examples/wide-add.core_desc" main.hex
[ -s main.elf ] || fail "--elf keeps no file"
cp "$user/cases/encodings.core_desc" "$user/cases/encodings.c" .
for level in 0 2 s; do
    ends 0 "$image" -O "$level" --extension encodings.core_desc encodings.c -o encodings.hex
    grep -q 'jump is left out: it writes PC' err || fail "no word on the jump"
    gives 00000bca encodings.core_desc encodings.hex
done
printf '#include "encodings.h"\nint main(void) { return ixt_addn(1, 4096); }\n' > range.c
refused "n of addn is outside of its range" "$image" --extension encodings.core_desc range.c
printf '#include "encodings.h"\nint main(void) { return ixt_split(1, 16); }\n' > absent.c
refused "h of split is outside of its range" "$image" --extension encodings.core_desc absent.c

echo 'int f(void) { return 1; }' > no-main.c
echo 'int main(void) { return 1' > cut.c
echo 'char big[1100000]; int main(int n) { return big[n]; }' > large.c
echo 'int n; __attribute__((constructor)) void f(void) { n++; } int main(void) { return n; }' \
    > before.c
{
    echo 'int big[] = {'
    seq -s, 100000 130000
    echo '}; int main(int n) { return big[n]; }'
} > data.c
: > no-object.o
refused "undefined reference to \`main'" "$image" no-main.c
refused "refused cut.c" "$image" cut.c
refused "region \`memory' overflowed" "$image" large.c
refused "constructors" "$image" before.c
refused "there may be 65536" "$image" data.c
refused "refused no-object.o" "$image" no-object.o
refused "left no such file" "$image" --cc true one.c
refused "No such file" "$image" one.c -o no-such-folder/file

# Cycles

printf '#include "wide-add.h"\nint main(void) { for (;;) ; }\n' > endless.c
{
    printf '#ifndef PLAIN\n#include "wide-add.h"\n#endif\n'
    echo 'int main(void) { return sizeof(long); }'
} > other.c
sed 's/return sizeof(long)/__asm__("nop"); return *(volatile char *)3/' other.c > fault.c
refused "includes the headers of 0 extensions" "$cycles" one.c
refused "No such file" "$cycles" no-such-file.c
refused "the host's compiler refused it" "$cycles" endless.c
refused "and on the host it is 00000008" "$cycles" other.c
refused "on the host it ends with the status" "$cycles" fault.c
refused "was not found" "$cycles" other.c --host-cc no-such-compiler
ends 0 "$cycles" "$user/cases/start_code.c"
cp out start.table
ends 0 "$cycles" "$user/cases/start_code.c" --check start.table
grep -q 'has the table of these runs' out || fail "--check does not find its own table"
sed 's/[0-9]* | [0-9]*%/7 | 7%/' start.table > wrong.table
refused "its table is another one" "$cycles" "$user/cases/start_code.c" --check wrong.table
ends 0 "$cycles" --check "$root/docs/C.md"
cat out

echo "$passed passed, $failed failed"
[ "$failed" = 0 ]
