# For benches that build programs over the crates of this repository, in their temporary folder `work`. They source it.

# names_below NAME..: these crates and those that they stand on, each once.
names_below() {
    awk -v tops="$*" '
        function add(name,   parts, count, at) {
            if (!(name in libraries) || name in added) return
            added[name] = 1
            print name
            count = split(libraries[name], parts, " ")
            for (at = 1; at <= count; at++) add(parts[at])
        }
        /^[a-z]/ { name = $1; sub(/:.*/, "", name); sub(/^[^:]*:/, ""); libraries[name] = $0 }
        END { count = split(tops, names, " "); for (at = 1; at <= count; at++) add(names[at]) }
    ' "$here/crates.txt"
}

# copy_crates NAME..: these crates and those that they stand on come into the folder, without their edits.
copy_crates() {
    local crate
    mkdir "$work/crates"
    cp "$here/HANDLES" "$work"
    for crate in $(names_below "$@"); do
        mkdir "$work/crates/$crate"
        tar -C "$here/crates/$crate" --exclude=./out --exclude=./must-fail --exclude=./more-edits -cf - . |
            tar -C "$work/crates/$crate" -xf -
        grep -E "^$crate:" "$here/crates.txt" >> "$work/crates.txt"
    done
}

# add_program NAME FOLDER LIBRARY..: so does a program of the texts in a folder, over these libraries. The texts aren't named .rt,
# since no gate reads them.
add_program() {
    local name=$1 text
    mkdir -p "$work/crates/$name/src"
    for text in "$2"/*.rt.txt; do
        cp "$text" "$work/crates/$name/src/$(basename "$text" .txt)"
    done
    shift 2
    echo "$name: $*" >> "$work/crates.txt"
}

# build: proves all that is there and hasn't been proved on this machine before, and leaves each program NAME as
# crates/NAME/out/NAME. Where that fails it prints what the checks refused, and the end of what they said.
build() {
    (cd "$work" && rt ci > "$work/log" 2>&1) || {
        grep -E 'not proved|error' "$work/log" | head -20
        tail -20 "$work/log"
        exit 1
    }
}
