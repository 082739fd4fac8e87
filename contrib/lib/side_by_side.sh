# How building.sh proves: as many crates at a time as there are lanes, each crate as soon as those that it stands on are proved, and of those that
# may start the one with the longest way to the product first. A large crate has more jobs than one, since those that stand on it wait; a small one
# would take twice the work for them and be no sooner. A lane is a copy of the sources, since two calls of rt in one tree wait for each other; a
# library that another lane proved rt takes over by itself.
# shellcheck shell=bash disable=SC2154

lanes=$(dirname "$product")/lanes

# As many lanes as processors are free, half of them at least since a load passes, and as memory allows at 3 GB each.
count_lanes() {
  local all free busy memory
  all=$(nproc)
  free=$all
  read -r busy _ 2>/dev/null </proc/loadavg && free=$((all - ${busy%.*}))
  [ "$free" -lt $(((all + 1) / 2)) ] && free=$(((all + 1) / 2))
  memory=$(awk '/^MemAvailable:/ { print int($2 / 3000000) }' /proc/meminfo 2>/dev/null)
  [ -n "$memory" ] && [ "$memory" -lt "$free" ] && free=$memory
  echo $((free > 1 ? free : 1))
}

# Whether rt can hand a library from one copy of the sources to another: it notes them beside its own folder.
may_share() {
  local beside
  beside=$(dirname "$(dirname "$(rt doc 2>/dev/null </dev/null)")")/rattle-kept
  [ -w "$beside" ] || { [ ! -e "$beside" ] && [ -w "$(dirname "$beside")" ]; }
}

# lane_folder LANE: the first lane is the tree itself.
lane_folder() {
  if [ "$1" = 0 ]; then echo "$root"; else echo "$lanes/$1"; fi
}

# make_lane LANE: the sources of the product as they stand, beside what an interrupted build left there.
make_lane() {
  local name part to
  to=$(lane_folder "$1")
  mkdir -p -- "$to/crates" && lines_below >"$to/crates.txt" && cp -- "$root/HANDLES" "$to/" || return 1
  while read -r name _; do
    name=${name%%:*}
    mkdir -p -- "$to/crates/$name" || return 1
    for part in src specs proofs; do
      rm -rf -- "$to/crates/$name/$part"
      [ ! -d "$root/crates/$name/$part" ] || cp -R -- "$root/crates/$name/$part" "$to/crates/$name/" || return 1
    done
  done < <(lines_below)
}

# prove_one LANE JOBS NAME: a library.
prove_one() {
  cd -- "$(lane_folder "$1")/crates/$3" && rt lib --jobs "$2" </dev/null
}

# Of lines "NAME BYTES", lines "WAY OWN NAME", the longest way first: what the crate costs, in bytes, and what it and the longest way from there to
# the product cost. A crate costs its own bytes, 20,000 for the start, and one for 20 bytes that are read of those below; the product is compiled
# as a whole besides.
ways() {
  awk -v product="$crate" '
    NR == FNR { bytes[$1] = $2; asked[$1]; next }
    {
      split($0, words, ":")
      own = words[1]
      order[++count] = own
      below[own] = words[2]
      read = 0
      many = split(words[2], names, " ")
      for (i = 1; i <= many; i++) if (names[i] != own) read += bytes[names[i]]
      cost[own] = 20000 + bytes[own] + int(read / 20) + (own == product ? 500000 : 0)
    }
    END {
      for (i = count; i > 0; i--) {
        own = order[i]
        way[own] += cost[own]
        many = split(below[own], names, " ")
        for (j = 1; j <= many; j++) if (names[j] != own && way[names[j]] < way[own]) way[names[j]] = way[own]
      }
      for (own in asked) print way[own], cost[own], own
    }' - <(all_below) | sort -rn
}

# is_ready NAME: nothing that it stands on is left to prove or being proved.
is_ready() {
  local other
  for other in "${left[@]}" "${!running[@]}"; do
    [ "$other" = "$1" ] || [[ ${stands[$1]} != *" $other "* ]] || return 1
  done
}

# start NAME JOBS: in the first free lane.
start() {
  named "$1" prove_one "${free[0]}" "$2" "$1" &
  running[$1]=$!
  lane_of[$1]=${free[0]}
  jobs_of[$1]=$2
  spare=$((spare - $2))
  free=("${free[@]:1}")
  mapfile -t left < <(printf '%s\n' "${left[@]}" | grep -vxF "$1")
}

# jobs_for NAME: a job more for each 150,000 bytes, of those that are free.
jobs_for() {
  local jobs=$((1 + bytes_of[$1] / 150000))
  echo $((jobs < spare ? jobs : spare))
}

# Starts crates, as many as may start and there are free lanes and jobs for.
fill_lanes() {
  local name ready=()
  for name in "${left[@]}"; do
    is_ready "$name" && ready+=("$name")
  done
  for name in "${ready[@]}"; do
    [ ${#free[@]} -gt 0 ] && [ "$spare" -gt 0 ] || return 0
    start "$name" "$(jobs_for "$name")"
  done
}

# end NAME: its lane and its jobs are free again.
end() {
  free+=("${lane_of[$1]}")
  spare=$((spare + jobs_of[$1]))
  unset "running[$1]"
}

# prove_below LANES: proves the libraries that standard input has as lines "NAME BYTES". One that is refused lets the others end, and no other start.
prove_below() {
  local status=0 name below bytes lines lane left free=() spare=$1
  local -A bytes_of=() stands=() running=() lane_of=() jobs_of=()
  lines=$(</dev/stdin)
  while read -r name bytes; do bytes_of[$name]=$bytes; done <<<"$lines"
  mapfile -t left < <(ways <<<"$lines" | sed 's/.* //')
  while IFS=: read -r name below; do stands[$name]=$below; done < <(all_below)
  for ((lane = 0; lane < $1; lane++)); do
    [ "$lane" = 0 ] || make_lane "$lane" || return 1
    free+=("$lane")
  done
  while [ ${#left[@]} -gt 0 ] || [ ${#running[@]} -gt 0 ]; do
    fill_lanes
    sleep 0.2
    for name in "${!running[@]}"; do
      if ! kill -0 "${running[$name]}" 2>/dev/null; then
        wait "${running[$name]}" || { status=1 && left=(); }
        end "$name"
      fi
    done
  done
  return $status
}
