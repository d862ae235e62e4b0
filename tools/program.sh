# What the launcher and `prove` share: which crates the program is made of, and the record of what it was made from. `root` is the
# repository's top folder.
program=$root/crates/ixt/out/ixt
record=$root/crates/ixt/out/ixt.sums

# The lines of crates.txt for `ixt` and all crates below it, in the order of the file.
crate_lines() {
    awk '
        { sub(/#.*/, ""); name = $1; sub(/:.*/, "", name); if (name == "") next; order[++count] = name; line[name] = $0 }
        END {
            wanted["ixt"] = 1
            do {
                grown = 0
                for (name in wanted) {
                    if (name in done) continue
                    done[name] = 1; grown = 1
                    below = line[name]; sub(/^[^:]*:/, "", below)
                    total = split(below, parts, " ")
                    for (at = 1; at <= total; at++) if (parts[at] in line) wanted[parts[at]] = 1
                }
            } while (grown)
            for (at = 1; at <= count; at++) if (order[at] in wanted) print line[order[at]]
        }' "$root/crates.txt"
}

crate_names() {
    crate_lines | sed 's/[: ].*//'
}

# The folders of `src`, `specs` and `proofs` of these crates, one a line, below the top folder.
source_folders() {
    for name in $(crate_names); do
        for part in src specs proofs; do
            [ ! -d "$root/crates/$name/$part" ] || echo "crates/$name/$part"
        done
    done
}

# The sums of all that the program is made from: the lines of its crates, HANDLES, and each file of their sources.
source_sums() {
    crate_lines | sha256sum
    # (names of crates are letters, digits and _, so words are enough)
    (cd "$root" && sha256sum HANDLES && find $(source_folders) -type f -print0 | LC_ALL=C sort -z | xargs -0 sha256sum)
}

# The record: the program's own sum, and one sum over those of its sources.
record_now() {
    sha256sum < "$program"
    source_sums | sha256sum
}

# Whether the program stands and was proved from the sources as they are.
is_proved() {
    [ -x "$program" ] || return 1
    now=$(record_now) || return 1
    if [ -f "$record" ] && [ "$(sed 1q "$record")" = "$(printf '%s\n' "$now" | sed 1q)" ]; then
        [ "$(cat "$record")" = "$now" ]
        return
    fi
    # (no record of this program: the gate has made it, if it is younger than all of its sources)
    [ -z "$(cd "$root" && find crates.txt HANDLES $(source_folders) -newer "$program" | sed 1q)" ] || return 1
    printf '%s\n' "$now" > "$record" 2>/dev/null || :
}
