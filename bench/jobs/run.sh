#!/usr/bin/env bash
# Times the jobs of the built program beside the C tools: run.sh [FOLDER [pack|unpack|cut|retile|patch|verify|list|tiles|disk ..]];
# bench/jobs/README.md says how. With a folder it keeps its images there.
set -eu
here=$(cd "$(dirname "$0")" && pwd)
fz=${FZ:-$here/../../crates/fz/out/fz}
folder=${1:-${TMPDIR:-/tmp}/fz_jobs}
shift || true
python3 "$here/make_images.py" "$folder"
python3 "$here/run.py" "$fz" "$folder" "$@"
