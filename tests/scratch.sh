# Functions for the scripts that build their own program over this repository's libraries.

# A folder that is removed when the script ends.
scratch="$(mktemp -d)"
trap 'rm -rf "$scratch"' EXIT

# scratch NAME 'DEP DEP..' FILE: copies the repository's crates into the folder, with one more
# crate, NAME, whose src/main.rt is FILE. It proves, builds and runs that crate there. The run's
# output goes to standard output, and `program` is set to the built program. The copy uses the
# repository's built libraries. The words of RT_RUN precede rt.
scratch() {
    local root crate dep part
    root="$(git -C "$(dirname "${BASH_SOURCE[0]}")" rev-parse --show-toplevel)"
    if [ ! -d "$scratch/.git" ]; then
        git init -q "$scratch"
        cp "$root/crates.txt" "$scratch/"
    fi
    for dep in $2; do
        [ ! -d "$root/crates/$dep" ] || scratch_rt "$dep" "$root/crates/$dep" lib > "$scratch/$dep.built" \
            || { tail -40 "$scratch/$dep.built" >&2; return 1; }
    done
    for crate in "$root"/crates/*; do
        mkdir -p "$scratch/crates/${crate##*/}/out"
        for part in src specs proofs out/rlib; do
            [ ! -d "$crate/$part" ] || [ -d "$scratch/crates/${crate##*/}/$part" ] \
                || cp -r "$crate/$part" "$scratch/crates/${crate##*/}/$part"
        done
    done
    mkdir -p "$scratch/crates/$1/src"
    cp "$3" "$scratch/crates/$1/src/main.rt"
    echo "$1: $2" >> "$scratch/crates.txt"
    program="$scratch/crates/$1/out/$1"
    scratch_rt "$1" "$scratch/crates/$1" run
}

# scratch_rt NAME FOLDER WORD..: runs rt in a folder, and prints its standard error only if it
# fails.
scratch_rt() {
    (cd "$2" && ${RT_RUN:-} rt "${@:3}" < /dev/null 2> "$scratch/$1.said") || {
        tail -40 "$scratch/$1.said" >&2
        return 1
    }
}
