# shellcheck shell=bash disable=SC2034 # what is set here is for those that read this
# Read by each `run` in bash: . "$(dirname "$0")/../support/prelude.sh" TEST
# Ends the test if it lacks something. Sets root, here, python and work, a folder that goes with it.
set -eu
root=$(cd "$(dirname "${BASH_SOURCE[0]}")/../.." && pwd)
here=$(cd "$(dirname "$0")" && pwd)
python=/usr/bin/python3

missing=$("$root/tests/needs" "$1" | paste -sd ' ')
if [ -n "$missing" ]; then
  echo "tests/$1: missing $missing" >&2
  exit 1
fi
work=$(mktemp -d)
leave() { rm -rf "$work"; }
trap leave EXIT
trap 'exit 130' INT TERM
export PYTHONDONTWRITEBYTECODE=1 PIP_ROOT_USER_ACTION=ignore PYTHONPATH=$root/tests

# Exports RELAY, the program to test: what it names already, or what ./relay builds.
find_relay() {
  if [ -z "${RELAY:-}" ]; then
    "$root/relay" --build
    RELAY=$root/crates/relay/out/relay
  fi
  RELAY=$(realpath "$RELAY")
  export RELAY
}

# Node, with WebSocket also where it is an experiment.
node_words() {
  local major
  major=$(node -p 'parseInt(process.versions.node)')
  if ((major < 22)); then
    echo node --no-warnings --experimental-websocket
  else
    echo node --no-warnings
  fi
}
