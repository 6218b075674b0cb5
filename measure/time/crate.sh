# Sourced by the scripts beside it. build_crate NAME DEP..: proves and builds the program NAME.txt of this
# folder as a crate of a copy of this repository, in a folder of its own that is removed at the end, and sets
# `program` to the binary. It takes some minutes where nothing of it was proved on this machine before.
# `rt try` proves nothing, but can't stand in for it: what it runs checks each memory access, and takes forty
# times as long.
build_crate() {
    local name=$1 crate file line
    shift
    scratch=$(mktemp -d)
    trap 'rm -rf "$scratch"' EXIT
    tar -C "$here/../.." --exclude='crates/*/out' -cf - HANDLES crates crates.txt | tar -C "$scratch" -xf -
    echo "$name: $*" >> "$scratch/crates.txt"
    crate=$scratch/crates/$name
    mkdir "$crate"
    while IFS= read -r line; do
        case $line in
            '== '*)
                file=$crate/${line#== }
                mkdir -p "$(dirname "$file")"
                ;;
            *) printf '%s\n' "$line" >> "$file" ;;
        esac
    done < "$here/$name.txt"
    (cd "$crate" && rt run) > "$scratch/built" 2>&1 || { cat "$scratch/built"; exit 1; }
    program=$crate/out/$name
}
