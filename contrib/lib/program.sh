# The program, as building.sh has it found or made. Sourced by a script of bash that has set `root`, `teller` and `refused`; behind `find_product`
# the file is `product`. Where `program` is `wire` it is that one.
# shellcheck shell=bash disable=SC2034,SC2154

case ${program-} in
  wire) crate=wire words=() ;;
  *) crate=offload words=(merge) ;;
esac
prover=$crate
product=$root/crates/$crate/out/$crate
# shellcheck source=contrib/lib/building.sh
. "$root/contrib/lib/building.sh" || exit "$refused"

# A capture of link type 1 without records.
no_records() {
  printf '\xd4\xc3\xb2\xa1\x02\x00\x04\x00\x00\x00\x00\x00\x00\x00\x00\x00\x00\x00\x04\x00\x01\x00\x00\x00'
}

# Has the program read a capture without records: that status is 0 only where it was proved, compiled, linked and run.
make_product() {
  cd -- "$root/crates/$crate" && rt run --jobs 1 -- "${words[@]}" < <(no_records) 2>&1 >/dev/null
}

is_made() {
  [ -s "$product.stamp" ]
}
