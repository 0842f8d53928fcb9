# shellcheck shell=bash disable=SC2154 # machine.sh sets machine_root
# bindings/rust/cargo.sh: cargo over the library; for bash, read in by other scripts (source) after machine.sh.
#
#   cargo_over_library FOLDER WORDS...   builds the library, and becomes cargo with these words, offline, in that crate's folder. Ends the
#                                        script where it cannot be: with a line and status 2 off x86-64, and with 1 where there is no cargo

cargo_over_library() {
  machine_need_native 'the library does not link into Rust programs of this machine' || exit 2
  command -v cargo >/dev/null || { machine_say 'cargo is not in PATH'; exit 1; }
  "$machine_root/library/build" >&2 || exit 1
  # A library that the caller names elsewhere would not be the one just built.
  unset THRESHCINCH_LIB
  export CARGO_TARGET_DIR=$machine_root/target/cargo-bindings
  cd "$1" || exit 1
  exec cargo "$2" --release --offline --locked "${@:3}"
}
