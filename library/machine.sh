# shellcheck shell=bash
# library/machine.sh: how x86-64 code is compiled and run on the machine at hand; for bash, read in by other scripts (source).
#
# Rattle's compiler writes x86-64 objects on every machine. On x86-64 they are linked and run as they are. Elsewhere (Arm) Debian's
# cross compiler links them, and the emulator that lies beside rt's compiler runs them, as rt runs its own programs there.
#
#   machine_files              makes sure that the three standard files are open; fails where the output is closed
#   machine_native             succeeds on x86-64
#   machine_need_native WHY    succeeds on x86-64; elsewhere says in a line that it is needed, and fails
#   machine_packages NAME...   installs the missing ones among these Debian packages, or says which are missing if not root
#   machine_cc                 prints the C compiler for x86-64
#   machine_tool NAME          prints ar, nm, objcopy, ld, ... for x86-64 objects
#   machine_python MODULE...   prints the Python that has these modules: PATH's, or else Debian's, with python3-MODULE installed
#   machine_run PROGRAM ARGS   runs an x86-64 program that machine_cc linked
#   machine_rt PROGRAM ARGS    runs an x86-64 program that rt linked: elsewhere the kit has the C library for it
#   machine_write TEXT         writes it to standard output, or says in a line why it could not be written, and fails
#   machine_say WORDS          a line on standard error, under the script's name; what cannot be said there is no failure
#   machine_fail WORDS         the same, and fails
#   machine_misused            what the script's own function usage prints, on standard error; ends the script with status 2
#
# What apt-get says goes to stderr, so that $(machine_cc) is the compiler's name alone.

machine_root=$(cd "$(dirname "${BASH_SOURCE[0]}")/.." && pwd)

# The script's name as a reader of README types it: from the repository's root.
machine_script=$(cd "$(dirname "$0")" 2>/dev/null && pwd)/${0##*/}
machine_script=${machine_script#"$machine_root"/}

# Prints to standard error. If nobody can be told (it is full, or its reader has gone), the work still goes on.
machine_print() { (trap '' PIPE; printf '%s' "$1") >&2 2>/dev/null || :; }

machine_say() { machine_print "$machine_script: $*"$'\n'; }

machine_fail() { machine_say "$@"; return 1; }

machine_misused() { machine_print "$(usage)"$'\n'; exit 2; }

# A reader that has gone away is a reason as others are, and no signal. The shell's own words end with the reason.
machine_write() {
  local why
  { why=$(trap '' PIPE; printf '%s' "$1" 2>&1 >&3); } 3>&1 || machine_fail "standard output: ${why##*: }"
}

# The next file or pipe that is opened takes the place of a standard file that is closed: a pipe of $( ) would be read as the input.
# Where number 2 is closed, bash has itself opened the script as that.
machine_files() {
  if [ ! -e /dev/fd/2 ] || [ /dev/fd/2 -ef "$0" ]; then exec 2>/dev/null; fi
  [ -e /dev/fd/0 ] || exec </dev/null
  [ -e /dev/fd/1 ] || machine_fail 'standard output is closed'
}

machine_native() { [ "$(uname -m)" = x86_64 ]; }

machine_need_native() { machine_native || machine_fail "needs x86-64: $1 ($(uname -m))"; }

# Where Debian's libc6-amd64-cross puts the C library and its loader.
machine_prefix=/usr/x86_64-linux-gnu

machine_packages() {
  local missing=() package
  for package in "$@"; do
    [ "$(dpkg-query -W -f '${db:Status-Status}' "$package" 2>/dev/null)" = installed ] || missing+=("$package")
  done
  [ ${#missing[@]} -eq 0 ] && return
  command -v apt-get >/dev/null || { machine_fail "missing ${missing[*]}, and there is no apt-get: install them first"; return 1; }
  [ "$(id -u)" -eq 0 ] || { machine_fail "missing ${missing[*]}: run as root, or install them first"; return 1; }
  machine_say "installing Debian's ${missing[*]} with apt-get"
  { apt-get update -qq && DEBIAN_FRONTEND=noninteractive apt-get install -y -qq --no-install-recommends "${missing[@]}"; } </dev/null >&2 ||
    machine_fail "apt-get did not install ${missing[*]}"
}

# The C library is only recommended by the compiler's package, so it is named.
machine_cross() { machine_packages gcc-x86-64-linux-gnu libc6-dev-amd64-cross; }

machine_cc() {
  if machine_native; then
    command -v gcc >/dev/null || machine_packages gcc libc6-dev || return 1
    echo gcc
  else
    machine_cross || return 1
    echo x86_64-linux-gnu-gcc
  fi
}

machine_tool() {
  if machine_native; then
    command -v "$1" >/dev/null || machine_packages binutils || return 1
    echo "$1"
  else
    machine_cross || return 1
    echo "x86_64-linux-gnu-$1"
  fi
}

# machine_has_modules PYTHON MODULE...
machine_has_modules() {
  local modules=${*:2}
  "$1" -c "import ${modules// /, }" </dev/null >/dev/null 2>&1
}

machine_python() {
  local debians=/usr/bin/python3
  if machine_has_modules python3 "$@"; then
    command -v python3
  else
    machine_has_modules "$debians" "$@" || machine_packages python3 "${@/#/python3-}" || return 1
    echo "$debians"
  fi
}

# Prints the emulator's path: rt's guide and its compilers have one folder above them.
machine_emulator() {
  local guide emulator
  command -v rt >/dev/null || { machine_fail 'rt is not in PATH, and the emulator lies beside its compiler'; return 1; }
  guide=$(rt doc) || { machine_fail 'rt does not say where its guide is, and the emulator lies beside it'; return 1; }
  emulator=${guide%/*}/on/$(uname -m)/toolchain/bin/qemu-x86_64
  [ -x "$emulator" ] || { machine_fail "rt's kit has no emulator of x86-64 for this machine, $(uname -m)"; return 1; }
  echo "$emulator"
}

machine_rt() {
  local emulator
  if machine_native; then
    "$@"
  else
    emulator=$(machine_emulator) || return 1
    "$emulator" "${emulator%/bin/*}/lib/ld-linux-x86-64.so.2" --library-path "${emulator%/bin/*}/lib" "$@"
  fi
}

# The loader is named, as rt does it, so that no other x86-64 C library of the machine comes between it and its own.
machine_run() {
  local emulator
  if machine_native; then
    "$@"
  else
    emulator=$(machine_emulator) || return 1
    machine_cross || return 1
    "$emulator" "$machine_prefix/lib/ld-linux-x86-64.so.2" --library-path "$machine_prefix/lib${LD_LIBRARY_PATH:+:$LD_LIBRARY_PATH}" "$@"
  fi
}
