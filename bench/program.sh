# Sourced by the benchmarks that run a program: builds it in a scratch folder, from the sources as they stand.
#
#     built_program TOP WORK [PROGRAM WORD..]    prints the path of the built program: sqlapply, or this one, run once with these
#                                                words over nothing
built_program() {
    local top=$1 work=$2 program=${3:-sqlapply} words=("${@:4}")
    [ "$#" -gt 2 ] || words=(fold 1)
    mkdir "$work/crates"
    cp "$top/HANDLES" "$top/crates.txt" "$work/"
    grep -oE '^[a-z0-9_]+:' "$top/crates.txt" | tr -d : | while read -r crate; do
        mkdir "$work/crates/$crate"
        for part in src specs proofs; do
            [ ! -d "$top/crates/$crate/$part" ] || cp -r "$top/crates/$crate/$part" "$work/crates/$crate/"
        done
    done
    mkdir -p "$work/crates/$program/redo"
    (cd "$work/crates/$program" && rt run -- "${words[@]}" </dev/null) >"$work/build.log" 2>&1 || true
    [ -x "$work/crates/$program/out/$program" ] || {
        tail -40 "$work/build.log" >&2
        return 1
    }
    echo "$work/crates/$program/out/$program"
}
