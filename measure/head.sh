# What the scripts begin with that time the proved program beside another one (`by_turns.py`): they source this file. It sets `here`, the
# folder of the scripts, `program`, the proved `dc`, and `folder`, a place for inputs, which is removed at the end.
here=$(cd "$(dirname "${BASH_SOURCE[0]}")" && pwd)
program=$here/../crates/dc_cli/out/dc_cli
[ -x "$program" ] || { echo "measure: .ci/run leaves the proved program that this measures" >&2; exit 1; }
command -v python3 > /dev/null || { echo "measure: python3 takes the times" >&2; exit 1; }
folder=$(mktemp -d)
trap 'rm -rf "$folder"' EXIT
