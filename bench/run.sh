#!/bin/sh
# Measures the programs against the baselines; see README.md.
set -eu

usage="usage: run.sh [LISTING [PROBE [SLICE_LISTING]]]"
for word; do
    case $word in
    -h | --help)
        echo "$usage"
        exit 0
        ;;
    -*)
        echo "no such flag: $word; $usage" >&2
        exit 64
        ;;
    esac
done

here=$(cd "$(dirname "$0")" && pwd)
lister=${1:-$here/../crates/binlog_list/out/binlog_list}
probe=${2:-$here/../crates/probe/out/probe}
slice_lister=${3:-$here/../crates/probe/out/probe}
baselines=$here/baseline/target/release

for program in "$lister" "$probe" "$slice_lister"; do
    if [ ! -x "$program" ]; then
        echo "run.sh: no program at $program" >&2
        exit 1
    fi
done

cargo build --release --offline \
    --manifest-path "$here/baseline/Cargo.toml" \
    --target-dir "$here/baseline/target" >&2
python3 "$here/make_binlogs.py" "$here/work"
exec python3 "$here/measure.py" "$lister" "$probe" "$slice_lister" \
    "$baselines/listing_baseline" "$baselines/slice_baseline" "$here/work"
