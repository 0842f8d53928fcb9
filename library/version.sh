# shellcheck shell=bash disable=SC2154 # machine.sh sets machine_root
# library/version.sh: the library's version, whose one home is include/threshcinch.h; for bash, read in by other scripts (source) after
# machine.sh.
#
#   version_of_header   prints THRESHCINCH_VERSION, as 0.3.0
#   version_soname_of VERSION   prints the name by which programs ask for the shared library of that version. It has the version's first
#                       number, and while that is 0 the second one too: one of them rises whenever a program that was linked before would go
#                       wrong (another record, another form of a call), so that such a program does not find the new one
#   version_soname      prints it for the header's version

version_of_header() {
  local found
  found=$(sed -nE 's/^#define THRESHCINCH_VERSION "([0-9]+\.[0-9]+\.[0-9]+)"$/\1/p' "$machine_root/include/threshcinch.h")
  [ -n "$found" ] || { machine_fail 'no THRESHCINCH_VERSION found in include/threshcinch.h'; return 1; }
  echo "$found"
}

version_soname_of() {
  case $1 in
    0.*) echo "libthreshcinch.so.${1%.*}" ;;
    *) echo "libthreshcinch.so.${1%%.*}" ;;
  esac
}

version_soname() {
  local version
  version=$(version_of_header) || return 1
  version_soname_of "$version"
}
