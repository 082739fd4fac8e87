# What the scripts that install share. Sourced by a script of bash that has set `teller`, with the words of its line: [--uninstall] PREFIX. It sets
#   root       the repository's folder
#   uninstall  not empty where files are to be removed
#   prefix     where they will be found
#   to         where they are put: the same, or below DESTDIR
# shellcheck shell=bash disable=SC2154

root=$(dirname "$(dirname "$(dirname "$(readlink -f "${BASH_SOURCE[0]}")")")")

stop() {
  echo "$teller: $1" >&2
  exit "$2"
}

# put MODE FILE FOLDER [NAME]: installs a file of the repository into a folder below the prefix.
put() {
  { mkdir -p -- "$to/$3" && install -m "$1" -- "$root/$2" "$to/$3/${4-${2##*/}}"; } 2>/dev/null || stop "$to/$3 can't be written" 1
  echo "install: $to/$3/${4-${2##*/}}"
}

# remove FILE..: those below the prefix that are there.
remove() {
  local file
  for file in "$@"; do
    if [ -e "$to/$file" ] || [ -L "$to/$file" ]; then
      rm -f -- "$to/$file" 2>/dev/null || stop "$to/$file can't be removed" 1
      echo "install: removed $to/$file"
    fi
  done
}

uninstall=
if [ "${1-}" = --uninstall ]; then
  uninstall=yes
  shift
fi
if [ $# -ne 1 ] || [ -z "$1" ] || [ "${1#-}" != "$1" ]; then
  stop "usage: contrib/$teller [--uninstall] PREFIX" 2
fi
if [ -n "${DESTDIR-}" ]; then
  prefix=${1%/}
  [ "${1#/}" != "$1" ] || stop "with DESTDIR the prefix begins with a slash" 2
  mkdir -p -- "$DESTDIR" 2>/dev/null || stop "$DESTDIR can't be made" 1
  to=$(CDPATH='' cd -- "$DESTDIR" && pwd)$prefix
elif [ -n "$uninstall" ]; then
  prefix=$(CDPATH='' cd -- "$1" 2>/dev/null && pwd) || stop "$1 isn't there" 1
  to=$prefix
else
  mkdir -p -- "$1" 2>/dev/null || stop "$1 can't be made" 1
  prefix=$(CDPATH='' cd -- "$1" && pwd) || stop "$1 can't be entered" 1
  to=$prefix
fi
