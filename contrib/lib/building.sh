# What ./offload and contrib/c/build share: where a product is that was built from the sources as they stand, and how it is proved and built where
# there is none. Sourced by a script of bash that has set
#   root     the repository's folder
#   crate    the crate of the product
#   product  the file that is built
#   teller   who speaks on the standard error
#   refused  the status where it can't be built
#   prover   the script whose --prove builds it here; offload where it isn't set
# and that has two functions: `make_product` has rt prove and build the crate, below which all is proved, and writes nothing but what rt says;
# `is_made` tells whether that made the product.
# shellcheck shell=bash disable=SC2154

# Beside each product lies a file of the same name and `.built`: the names and checksums of the sources, and of the product that was built from them.
# What the release has is stripped of what only a debugger reads, and a third file, `.whole`, has the checksum of the product as it was built.
log=$product.log
archive=$root/release/offload.tar.xz
released=$root/out/release/${product##*/} # what was taken from there

# shellcheck source=contrib/lib/side_by_side.sh
. "$root/contrib/lib/side_by_side.sh" || exit 1

say() {
  echo "$teller: $1" >&2
}

refuse() {
  say "$1"
  exit "$refused"
}

# The lines of crates.txt of the crate and of all that it stands on, lowest first.
lines_below() {
  awk -F: -v crate="$crate" '
    /^[^#]/ { split($1, words, " "); line[words[1]] = $0; below[words[1]] = $2 }
    function visit(crate,  words, count, i) {
      if (crate in seen || !(crate in line)) return
      seen[crate]
      count = split(below[crate], words, " ")
      for (i = 1; i <= count; i++) visit(words[i])
      print line[crate]
    }
    END { visit(crate) }' "$root/crates.txt"
}

# What the product is built from: those lines, and the checksum and name of each source that a build reads.
sources() {
  local lines folders=() name part
  lines=$(lines_below) || return 1
  echo "$lines"
  while read -r name _; do
    for part in src specs proofs; do
      [ -d "$root/crates/${name%:}/$part" ] && folders+=("crates/${name%:}/$part")
    done
  done <<<"$lines"
  [ ${#folders[@]} -gt 0 ] && cd -- "$root" &&
    find "${folders[@]}" ! -type d \( -name '*.rt' -o -name '*.antt' \) ! -name '.*' -print0 | LC_ALL=C sort -z | xargs -0 sha256sum --
}

# state FILE: the same, and the checksum of a product.
state() {
  (sources && sha256sum <"$1") 2>/dev/null
}

# is_of_these FILE: whether it is a product that was built from the sources as they stand.
is_of_these() {
  [ -s "$1" ] && { [ -x "$1" ] || [ "${1##*.}" = a ]; } && [ -f "$1.built" ] && [ "$(state "$1")" = "$(<"$1.built")" ]
}

is_built() {
  is_of_these "$product"
}

# ---- the release: products that were proved and built elsewhere

# why_not FOLDER: why the product that was unpacked there can't be taken; nothing where it can.
why_not() {
  local at=$1/${product##*/} first
  first=$(diff <(head -n -1 "$at.built") <(sources) | sed -n 's/^[<>] //p' | sed -n '1s/^[0-9a-f]\{64\}  //p; 1s/:.*/ of crates.txt/p' | head -n 1)
  if [ -n "$first" ]; then
    echo "it was built from other sources, $first first of all"
  elif [ "$(sha256sum <"$at")" != "$(tail -n 1 "$at.built")" ]; then
    echo "its ${at##*/} isn't what was built"
  fi
}

# Takes what the release has, where that was built from exactly these sources.
take_released() {
  local new why
  [ -f "$archive" ] && mkdir -p "$root/out" 2>/dev/null && new=$(mktemp -d "$root/out/release.XXXXXX" 2>/dev/null) || return 1
  if ! tar -xJf "$archive" -C "$new" 2>/dev/null; then
    why="release/${archive##*/} can't be unpacked"
  elif [ -f "$new/${product##*/}.built" ]; then
    why=$(why_not "$new")
  else
    why="it has no ${product##*/}"
  fi
  if [ -z "$why" ] && ! { rm -rf "$root/out/release" && mv "$new" "$root/out/release"; } 2>/dev/null; then
    why="$root/out can't be written"
  fi
  if [ -n "$why" ]; then
    rm -rf "$new"
    say "the release isn't taken: $why"
    return 1
  fi
  say "taken from release/: proved and built elsewhere from exactly these sources; './${prover-offload} --prove' proves and builds it here, and compares"
}

# Has `product` name a file that was built from these sources, here or, where it was never built here, elsewhere; builds it where there is none.
# With OFFLOAD_RELEASED set it is what release/ has, and nothing else.
find_product() {
  [ -z "${OFFLOAD_RELEASED-}" ] && is_built && return
  if is_of_these "$released" || take_released; then
    product=$released
  elif [ -n "${OFFLOAD_RELEASED-}" ]; then
    refuse "release/ has no ${product##*/} that was built from these sources; contrib/release makes it"
  else
    build_in_turn
  fi
}

# Says whether the product that was built here is the release's, to the bit.
compare_released() {
  if ! is_of_these "$released" && ! take_released 2>/dev/null; then
    say "proved and built here; release/ has nothing that was built from these sources, so there is nothing to compare with"
  elif [ "$(sha256sum <"$product")" = "$(<"$released.whole")" ]; then
    say "proved and built here, and the same as the release's to the bit"
  else
    say "proved and built here, and NOT the same as what the release was made of"
    return 1
  fi
}

# ---- proving and building

# Of a list of sources, the crates that changed since the last build and those above them, or all where nothing was built: for each a line with
# the bytes of its sources.
to_prove() {
  local name below words changed
  changed=$(diff <(sort "$product.built" 2>/dev/null) <(sort <<<"$1") |
    sed -n -e 's/^[<>] [0-9a-f]*  crates\/\([^/]*\)\/.*/\1/p' -e 's/^[<>] \([a-z_0-9]*\)[ a-z]*:.*/\1/p' | sort -u)
  while IFS=: read -r name below; do
    name=${name%% *}
    read -ra words <<<"$name $below"
    if grep -qxF "$(printf '%s\n' "${words[@]}")" <<<"$changed"; then
      changed+=$'\n'$name
      echo "$name $(find "$root/crates/$name/src" "$root/crates/$name/specs" "$root/crates/$name/proofs" -name '*.*t*' -type f -exec cat {} + 2>/dev/null | wc -c)"
    fi
  done < <(lines_below)
}

# What will be done, and about how long. From nothing a megabyte of sources takes 11 minutes of processor time.
announce() {
  local count bytes by
  read -r count bytes < <(to_prove "$1" | awk '{ bytes += $2 } END { print NR, bytes + 0 }')
  by=$(rt version 2>/dev/null </dev/null | head -n 1)
  say "proving and building ${product##*/} with ${by:-rt}: $count of $(lines_below | wc -l) crates are new, changed, or stand on one that is"
  say "from nothing that takes some $((bytes * 11 / 1000000 + 1)) minutes of processor time, by $(count_lanes) processors here; what this machine proved before is taken over, and a build that is interrupted goes on where it was"
}

# What each crate stands on, whether near or far, and the crate itself, lowest crate first: "NAME: NAME NAME ..".
all_below() {
  lines_below | awk -F: '
    {
      split($1, own, " ")
      all = " " own[1] " "
      count = split($2, near, " ")
      for (i = 1; i <= count; i++) {
        far = split(below[near[i]], names, " ")
        for (j = 1; j <= far; j++) if (!index(all, " " names[j] " ")) all = all names[j] " "
      }
      below[own[1]] = all
      print own[1] ":" all
    }'
}

# Seconds that are left of a build that began so many ago, by what is left on the longest way and of all, beside what was done of both; nothing before
# a tenth of that way is done. Lines are those of `ways` that are left.
seconds_left() {
  awk -v seconds="$1" -v way="$2" -v all="$3" '
    { if ($1 > longest) longest = $1; sum += $2 }
    END {
      if (sum == 0 || longest > 0.9 * way) exit
      left = seconds * longest / (way - longest)
      other = seconds * sum / (all - sum)
      print int(left > other ? left : other)
    }'
}

# Keeps what is read in the log, and says how far the proving of these crates is, lines of `ways`, and about how long it takes yet.
tell() {
  local began=$SECONDS at=0 line name rest=$1 count way all seconds
  read -r count way all < <(awk '{ if ($1 > way) way = $1; all += $2 } END { print NR, way + 0, all + 0 }' <<<"$rest")
  while IFS= read -r line; do
    printf '%s\n' "$line" >&3
    case $line in
      *': done')
        at=$((at + 1))
        name=${line%: done}
        rest=$(grep -v " $name\$" <<<"$rest")
        seconds=$(seconds_left $((SECONDS - began)) "$way" "$all" <<<"$rest")
        say "$at of $count crates, after $((SECONDS - began)) seconds${seconds:+, some $((seconds / 60 + 1)) minutes left}: $name"
        ;;
      *': rt: waiting for another rt'* | *'; waiting for it,'*) say "${line#*rt: }" ;;
    esac
  done
}

# named NAME COMMAND..: the command, each line of which begins with the crate's name; a last one says that it ended well.
named() {
  "${@:2}" 2>&1 | sed -u "s/^/$1: /" && echo "$1: done"
}

# Proves what changed, and builds the product.
prove_and_build() (
  [ -d "${TMPDIR:-/tmp}" ] || unset TMPDIR
  exec 3>>"$log" || exit 1
  set -o pipefail
  mapfile -t changed < <(to_prove "$1" | grep -v "^$crate ")
  asked=$(printf '%s\n' "${changed[@]}" "$crate 0" | grep . | ways)
  count=$(count_lanes)
  may_share || count=1
  {
    { [ ${#changed[@]} = 0 ] || prove_below "$count" < <(printf '%s\n' "${changed[@]}"); } && named "$crate" make_product && rm -rf -- "$lanes"
  } 3>&- | tell "$asked"
)

# The end of the log, and before it the lines on what was refused, of the crates that aren't proved.
show_log() {
  awk -F: '
    / logic=proved/ { delete lines[$1] }
    /(^|[ :])error[:[]|not proved|: rt: / { lines[$1] = lines[$1] $0 "\n" }
    END { for (name in lines) printf "%s", lines[name] }' "$log" | head -n 40 >&2
  tail -n 12 "$log" >&2
}

# in_group COMMAND..: runs it in a process group of its own, which ends with this script where that is told to end.
in_group() {
  local name status
  set -m
  "$@" </dev/null &
  group=$!
  set +m
  for name in HUP INT TERM; do
    # shellcheck disable=SC2064
    trap "end_with $name" "$name"
  done
  wait "$group"
  status=$?
  trap - HUP INT TERM
  forget_lanes
  return $status
}

# What lanes were proved stays there, but their lists of crates go: rt ci takes no second one in a tree.
forget_lanes() {
  rm -f -- "$lanes"/*/crates.txt
}

# Ends the group, and then this script by the signal that came.
end_with() {
  trap '' HUP INT TERM
  kill -TERM -- "-$group" 2>/dev/null
  wait "$group" 2>/dev/null
  kill -KILL -- "-$group" 2>/dev/null
  forget_lanes
  say "the build was ended; what is proved is kept"
  trap - "$1"
  kill -s "$1" $$
}

build() {
  local before began=$SECONDS name
  name=$(basename "$product")
  if ! command -v rt >/dev/null; then
    refuse "$name isn't built from these sources, and the command 'rt' of the Rattle toolchain, which builds it, isn't on the path"
  fi
  if ! { mkdir -p "$(dirname "$product")" && [ -w "$(dirname "$product")" ] && : >"$log"; } 2>/dev/null; then
    refuse "$name isn't built from these sources, and $(dirname "$product") can't be written"
  fi
  before=$(sources)
  announce "$before"
  if ! in_group prove_and_build "$before"; then
    show_log
    refuse "$name could not be built; all that was said is in $log"
  fi
  if [ "$(sources)" != "$before" ] || ! is_made; then
    refuse "a source changed while $name was built; call it again"
  fi
  state "$product" >"$product.built"
  say "built in $((SECONDS - began)) seconds"
}

# One build at a time: another call waits for it, and takes what it built.
build_in_turn() {
  if exec 9<"$root/offload" && command -v flock >/dev/null && ! flock -n 9; then
    say "another call is building; waiting for it"
    flock 9
  fi
  is_built || build 9<&-
  exec 9<&-
}
