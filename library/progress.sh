# shellcheck shell=bash disable=SC2154 # machine.sh sets machine_root and machine_script
# library/progress.sh: proves with rt, and says on standard error what is going on and how far it is; for bash, read in by other scripts
# (source) after machine.sh.
#
#   progress_prove CRATE LOG COMMAND   runs `rt COMMAND` in crates/CRATE (COMMAND: check, lib or run, with no input), what it prints into LOG.
#                                      Where something is not proved LOG's end goes to standard error, with a line, and it fails
#   progress_archive CRATE LOG         the same by `rt lib` of a static library, whose archive it copies to target/staticlib: libCRATE.a, where
#                                      a crate NAME_c, which has the exports of crate NAME, gives libNAME.a

# Prints how many crates that takes: this one and all that it rests on in crates.txt, where the kit's own libraries have no line. A static
# library's name has the word staticlib behind it.
progress_count() {
  awk -v wanted="$1" '
    function visit(name,    parts, many, i) {
      if (!(name in needs) || seen[name]++) return
      many = split(needs[name], parts, " ")
      for (i = 1; i <= many; i++) visit(parts[i])
      count++
    }
    { sub(/#.*/, "") }
    split($0, line, ":") == 2 { sub(/ .*/, "", line[1]); gsub(/[ \t]/, "", line[1]); needs[line[1]] = line[2] }
    END { visit(wanted); print count + 0 }' "$machine_root/crates.txt"
}

# On a terminal one line, written over; elsewhere a line each.
progress_show() {
  local line="$machine_script: $1 of $2 crates proved"
  if [ -t 2 ]; then machine_print $'\r'"$line"; else machine_print "$line"$'\n'; fi
}

progress_end_line() { [ ! -t 2 ] || machine_print $'\n'; }

# Copies what rt prints from standard input to the log, counts the crates, and shows the count when one more was proved. rt says nothing of
# crates that have not changed.
progress_follow() {
  local of=$1 log=$2 proved=0 line part='' ended
  progress_shown=0
  while :; do
    ended=0
    IFS= read -r -t 1 line || ended=$?
    if [ "$ended" -eq 0 ]; then
      line=$part$line part=''
      printf '%s\n' "$line" 2>/dev/null || : # a full disk is no reason to stop: rt itself will say so
      case $line in 'logic=proved '*) proved=$((proved + 1)) ;; *) continue ;; esac
    elif [ "$ended" -gt 128 ]; then
      part+=$line # the second is over; a line may have begun
    else
      break
    fi
    [ "$progress_shown" -eq "$proved" ] || progress_show "$proved" "$of"
    progress_shown=$proved
  done >"$log"
}

# Ends all that rt started, and then the script as the signal would have.
progress_stop() {
  kill -TERM -- "-$2" 2>/dev/null || :
  wait "$2" 2>/dev/null || :
  progress_end_line
  trap - "$1"
  kill "-$1" "$$"
}

# rt's provers run in its background, where Ctrl-C does not reach them: so rt gets a session of its own, whose processes are ended together.
progress_prove() {
  local crate=$1 log=$2 command=$3 of status=0 from_rt rt signal
  command -v rt >/dev/null || { machine_fail 'the Rattle kit (rt) is not in PATH'; return 1; }
  { : >"$log"; } 2>/dev/null || { machine_fail "${log#"$machine_root"/} cannot be written"; return 1; }
  of=$(progress_count "$crate")
  machine_say "proving crates/$crate with all that it rests on, $of crates: minutes the first time, less where little has changed"
  exec {from_rt}< <(cd "$machine_root/crates/$crate" && exec setsid rt "$command" </dev/null 2>&1)
  rt=$!
  # shellcheck disable=SC2064 # the number is known now
  for signal in INT TERM HUP; do trap "progress_stop $signal $rt" "$signal"; done
  progress_follow "$of" "$log" <&"$from_rt"
  wait "$rt" || status=$?
  trap - INT TERM HUP
  exec {from_rt}<&-
  # rt has no line for a crate that has not changed.
  [ "$status" -ne 0 ] || [ "$progress_shown" -eq "$of" ] || progress_show "$of" "$of"
  progress_end_line
  [ "$status" -eq 0 ] || { tail -n 20 "$log" >&2; machine_fail "crates/$crate is not proved; ${log#"$machine_root"/} has it whole"; }
}

progress_archive() {
  local crate=$1 log=$2 to=$machine_root/target/staticlib
  progress_prove "$crate" "$log" lib || return 1
  mkdir -p "$to" && cp "$machine_root/crates/$crate/out/lib$crate.a" "$to/lib${crate%_c}.a"
}
