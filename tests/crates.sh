# shellcheck shell=sh
# Of crates and of what is built of them, for tests/programs and tests/library, at the root.

# NAME..: prints the crates that these are made of, the lowest first.
needed() {
    awk -F: -v wanted="$*" '
        function visit(name,    words, i) {
            if (!(name in leans) || name in met) return
            met[name]
            split(leans[name], words, " ")
            for (i = 1; i in words; i++) visit(words[i])
            print name
        }
        { sub(/#.*/, ""); split($1, head, " ") }
        NF == 2 { leans[head[1]] = $2 }
        END { split(wanted, names, " "); for (n = 1; n in names; n++) visit(names[n]) }' crates.txt
}

# FILE CRATE..: whether the file or folder is there, and no source of these crates is newer.
recent() {
    [ -e "$1" ] || return 1
    file=$1
    shift
    for crate; do
        for part in src specs proofs; do
            [ ! -d "crates/$crate/$part" ] || set -- "$@" "crates/$crate/$part"
        done
        shift
    done
    [ -z "$(find "$@" -newer "$file" | head -n 1)" ]
}
