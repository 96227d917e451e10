# shellcheck shell=bash disable=SC2154 # work and root are of prelude.sh
# Read by tests that use a fresh Debian: . "$root/tests/support/debian.sh"
SUITE=bookworm
PATH=$PATH:/usr/sbin:/sbin
MIRROR=${MIRROR:-$("$root/tests/release/mirror" "$SUITE")}
kept=${XDG_CACHE_HOME:-$HOME/.cache}/relay-release

# fresh_debian FOLDER: unpacks one from a file that debootstrap fills the first time, from the
# mirror that apt uses here (MIRROR names another), and that is kept in ~/.cache/relay-release.
fresh_debian() {
  if [ ! -e "$kept/$SUITE.tar" ]; then
    debootstrap --variant=minbase "$SUITE" "$work/made" "$MIRROR" && keep "$work/made" "$SUITE" ||
      return
  fi
  mkdir "$1" && tar -C "$1" -xpf "$kept/$SUITE.tar"
}

# fresh_debian_with FOLDER NAME PACKAGE..: one that has these packages too, kept under a name.
fresh_debian_with() {
  local folder=$1 name=$SUITE-$2
  shift 2
  if [ "$(cat "$kept/$name.packages" 2>/dev/null)" != "$*" ]; then
    fresh_debian "$work/filled" && chroot "$work/filled" apt-get update -qq &&
      DEBIAN_FRONTEND=noninteractive chroot "$work/filled" \
        apt-get install -y -qq --no-install-recommends "$@" &&
      keep "$work/filled" "$name" && echo "$*" >"$kept/$name.packages" || return
  fi
  mkdir "$folder" && tar -C "$folder" -xpf "$kept/$name.tar"
}

keep() {
  mkdir -p "$kept"
  tar -C "$1" -cf "$kept/$2.tar.$$" . && mv "$kept/$2.tar.$$" "$kept/$2.tar"
}
