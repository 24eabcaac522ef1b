#!/bin/sh
# Builds oracle/build/svq1_oracle: the Rust original, unchanged, with our
# shims, appended entry points and harness around it.
#
# The original is read from ../shared/docs/src beside the repository, or
# from the folder that SVQ1_SOURCE names. It is only copied to
# oracle/build, which git ignores.
set -eu

here=$(CDPATH='' cd -- "$(dirname -- "$0")" && pwd)
original=${SVQ1_SOURCE:-$here/../../shared/docs/src}
build=$here/build
copies=$build/src

modules='svq1_blocktree svq1_codebook svq1_enc svq1_enc_inter svq1_enc_leaf
svq1_enc_tree svq1_mc svq1_mean svq1_motion_predictor svq1_mv_cache
svq1_plane svq1_vlc'

fail() {
    echo "oracle/build.sh: $1" >&2
    exit 1
}

need_tools() {
    command -v rustc >/dev/null 2>&1 ||
        fail 'rustc is not on the path; the oracle needs Rust 1.88 or later'
}

need_sources() {
    for module in $modules; do
        test -f "$original/$module.rs" ||
            fail "$original/$module.rs is missing; set SVQ1_SOURCE to the folder of the Rust original"
    done
}

# The copy of a module, followed by what this folder adds to it.
copy_module() {
    cp "$original/$1.rs" "$copies/$1.rs"
    chmod u+w "$copies/$1.rs"
    if test -f "$here/append/$1.rs"; then
        cat "$here/append/$1.rs" >>"$copies/$1.rs"
    fi
}

# The recording twin of the plane writer, made from the writer's own text.
add_recording_twin() {
    awk -f "$here/record.awk" "$original/svq1_enc_inter.rs" >"$build/twin.rs" ||
        fail 'the recording twin could not be made; see the message above'
    cat "$build/twin.rs" >>"$copies/svq1_enc_inter.rs"
}

# Every copy must begin with the whole original, byte for byte.
check_prefix() {
    length=$(wc -c <"$original/$1.rs")
    head -c "$length" "$copies/$1.rs" | cmp -s - "$original/$1.rs" ||
        fail "the copy of $1.rs does not begin with the original"
}

need_tools
need_sources
rm -rf "$copies"
mkdir -p "$copies/out"
for module in $modules; do
    copy_module "$module"
done
add_recording_twin
for module in $modules; do
    check_prefix "$module"
done
cp "$here"/shims/*.rs "$here"/src/*.rs "$copies/"
mv "$copies/svq1_codebook_data.rs" "$copies/out/"

OUT_DIR=$copies/out rustc --edition 2024 -C opt-level=3 \
    -C debug-assertions=on -C overflow-checks=on \
    -o "$build/svq1_oracle" "$copies/main.rs" || fail 'rustc failed'
echo "built oracle/build/svq1_oracle"
