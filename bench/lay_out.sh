# For the scripts that measure the program `benches`, which source this at the top of the repository: sets `program` to the
# path of the program. Its sources stand in bench/benches as text, and no crate of the repository is the program. So the
# repository's crates are copied to a temporary folder, the sources are laid out there as a crate more, and the program is
# built. The folder is named by a sum of all that goes into it, so that a program that is built is used again until
# something changes. With PROGRAM=PATH that program is used as it stands.
program=${PROGRAM:-}
if [ -z "$program" ]; then
    sum=$(cat crates.txt bench/benches/*.rt.txt crates/*/src/*.rt crates/*/specs/*.antt | sha256sum | cut -c1-16)
    copy=${TMPDIR:-/tmp}/benches-$sum
    program=$copy/crates/benches/out/benches
    if [ ! -x "$program" ]; then
        rm -rf "$copy"
        mkdir -p "$copy"
        tar --exclude=out -cf - crates crates.txt HANDLES | tar -xf - -C "$copy"
        mkdir -p "$copy/crates/benches/src"
        for source in bench/benches/*.rt.txt; do
            cp "$source" "$copy/crates/benches/src/$(basename "$source" .txt)"
        done
        echo "benches: interchange_io http_wire altair_blocks phase0_blocks phase0_types protect_record slash_defs edge_kit serde_json" >>"$copy/crates.txt"
        (cd "$copy/crates/benches" && rt run -- check 1 >"$copy/build" 2>&1) || { cat "$copy/build" >&2; exit 1; }
    fi
fi
