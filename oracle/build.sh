#!/bin/sh
# Builds the oracle. Copies the sources into generated/ (git-ignored), adds the two allowed
# things, checks that nothing else was changed, and runs cargo without a network.
set -eu
cd "$(dirname "$0")"
SRC=${ORACLE_SRC:-../../shared/docs/src/language/move-prover/bytecode/src}
FILES="annotations borrow_analysis dataflow_analysis dataflow_domains function_target
function_target_pipeline livevar_analysis stackless_bytecode stackless_control_flow_graph"
COUNTER='crate::oracle_taken(); // oracle: counts the removals'

mkdir -p generated.new
for f in $FILES; do
    cp "$SRC/$f.rs" "generated.new/$f.rs"
    chmod u+w "generated.new/$f.rs"
done
# (b) the counter, right after the removal from the work list.
sed -i "/while let Some(block_id) = work_list.pop_front() {/a $COUNTER" \
    generated.new/dataflow_analysis.rs
# (a) module text at the end of a file, to reach what is private there.
for f in borrow_analysis livevar_analysis; do
    cat "src/append_$f.rs" >> "generated.new/$f.rs"
done

# Nothing else moved.
for f in $FILES; do
    case $f in
    dataflow_analysis)
        test "$(grep -cF "$COUNTER" "generated.new/$f.rs")" = 1
        grep -vF "$COUNTER" "generated.new/$f.rs" | cmp - "$SRC/$f.rs" ;;
    borrow_analysis | livevar_analysis)
        head -c "$(wc -c < "$SRC/$f.rs")" "generated.new/$f.rs" | cmp - "$SRC/$f.rs" ;;
    *)
        cmp "generated.new/$f.rs" "$SRC/$f.rs" ;;
    esac
done
mkdir -p generated
for f in $FILES; do # keep the times of files that did not change
    cmp -s "generated.new/$f.rs" "generated/$f.rs" || cp "generated.new/$f.rs" "generated/$f.rs"
done
rm -r generated.new

# Where Debian puts the crate sources (or say it yourself in ORACLE_REGISTRY).
REG=${ORACLE_REGISTRY:-$(dirname "$(dirname "$(dpkg -L librust-im-rc-dev | grep '/im-rc-[^/]*/Cargo.toml$')")")}
cargo build --release --offline --quiet \
    --config "source.crates-io.replace-with='debian'" \
    --config "source.debian.directory='$REG'"
echo "built target/release/oracle"
