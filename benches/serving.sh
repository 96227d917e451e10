# shellcheck shell=bash disable=SC2034 # what is set here is for those that read this
# Read by the benches in bash: sets root and work, a folder that goes with the bench, and has
# servers start and stop.
set -eu
root=$(cd "$(dirname "${BASH_SOURCE[0]}")/.." && pwd)
work=$(mktemp -d)
serve=
leave() {
  [ -z "$serve" ] || kill "$serve" 2>/dev/null || true
  rm -rf "$work"
}
trap leave EXIT

# start PROGRAM [OPTION..]: starts a server, and sets serve and port.
start() {
  local program=$1
  shift
  : >"$work/port"
  "$program" serve --port 0 "$@" >"$work/port" 2>"$work/errors" &
  serve=$!
  until grep -q listening "$work/port"; do
    if ! kill -0 "$serve" 2>/dev/null; then
      cat "$work/errors" >&2
      exit 1
    fi
    sleep 0.05
  done
  port=$(awk '{ print $2; exit }' "$work/port")
}

stop() {
  kill "$serve"
  wait "$serve" 2>/dev/null || true
  serve=
}
