# The library for C, as building.sh has it found or made. Sourced by a script of bash that has set `root`, `teller` and `refused`; behind
# `find_product` the file is `product`. Where `library` is `burst` it is that of bursts alone, and where it is `skb` that of packet buffers.
# shellcheck shell=bash disable=SC2034,SC2154

case ${library-} in
  burst) crate=burst_c product=liboffload_burst.a ;;
  skb) crate=skb_c product=liboffload_skb.a ;;
  *) crate=offload_c product=liboffload.a ;;
esac
proved=$root/crates/$crate/out/lib$crate.a
product=$root/crates/$crate/out/$product
# shellcheck source=contrib/lib/building.sh
. "$root/contrib/lib/building.sh" || exit "$refused"

make_product() {
  command -v ar || { echo "error: ar isn't on the path" && return 1; }
  cd -- "$root/crates/$crate" && rm -f -- "$proved" "$product" && rt lib --jobs 1 2>&1 </dev/null && join_archives 2>&1
}

is_made() {
  [ -s "$product" ]
}

# One archive of the proved library and of the kit's three functions.
join_archives() (
  runtime=$(dirname "$(rt doc)")/c/liblibc_c.a room=$(mktemp -d) || return 1
  trap 'rm -rf "$room"' EXIT
  cp -- "$proved" "$room/made.a" && cd -- "$room" && ar x "$runtime" && ar r made.a ./*.o && mv -- made.a "$product"
)
