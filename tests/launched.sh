# What tests/launcher and tests/terminal are made of: a stand-in for rt on the path, a small repository, and its cases.
here=$(cd "$(dirname "${BASH_SOURCE[0]}")" && pwd)
room=$(mktemp -d)
chmod 755 "$room"
trap 'rm -rf "$room"' EXIT
passed=0 failed=0
unset MALLOC_TRIM_THRESHOLD_ MALLOC_MMAP_THRESHOLD_
export STAND_IN=$room/stand-in TMPDIR=$room/tmp PATH=$room/bin:$PATH
mkdir "$room/bin" "$TMPDIR"
ln -s "$here/stand-in-rt" "$room/bin/rt"
chmod 777 "$TMPDIR"

# --- what the cases are made of

# A repository with the launcher, of two crates, nothing of it built. Its folder has a space in its name.
fresh() {
  repo="$room/a folder"
  rm -rf "$repo" "$STAND_IN" "$room"/{out,err,first*,second*,third*}
  mkdir -p "$STAND_IN" "$repo/crates/low/"{src,specs,proofs/f} "$repo/crates/sccl/src"
  cp -r "$here/../sccl" "$here/../tools" "$repo"
  cd "$repo" || exit
  printf '%s\n' "# a comment: with a colon" "low: itoa" "sccl: low" "aside:" >crates.txt
  echo "Handles allowed: none." >HANDLES
  echo "one" >crates/low/proofs/f/Answers.antt
  echo "two" >crates/low/specs/Lib.antt
  echo "three" >crates/low/src/lib.rt
  echo "four" >crates/sccl/src/main.rt
  printf '%s\n' a stored word >crates/sccl/args
  echo "stored" | tee crates/sccl/stdin >crates/sccl/stdout
}

# Runs words, with the text `given` as standard input, and keeps what they gave.
given=''
run() {
  timeout 60 "$@" <<<"$given" >"$room/out" 2>"$room/err"
  status=$?
  out=$(<"$room/out") err=$(<"$room/err")
}

built() {
  fresh
  run ./sccl
  : >"$STAND_IN/calls"
}

# Runs words at a terminal; what it got is `drawn`, what stays of that is `err`, and where standard output is a file, that is `out`.
# (On a slow machine each run may take long enough to tell how far it is, in a line that is written anew.)
at_terminal() {
  TERM=${terminal-xterm} python3 -B "$here/at_terminal.py" --columns "${columns-200}" --input "$room/given" "$@" >"$room/err"
  status=$?
  out='' drawn=$(tr -d '\r' <"$room/err")
  err=$(sed -z ':more; s/\x1b\[K[^\x1b\n]*\x1b\[K/\x1b[K/; t more; s/\x1b\[K//' <<<"$drawn")
  [[ ! -e $room/out ]] || out=$(<"$room/out")
}

# The program does what the lines say that are given here. The text `given` is its input.
with_program() {
  [[ -e ${repo-}/out/sccl.sums ]] || built
  rm -rf proofs
  { echo "#!/usr/bin/env bash" && cat; } >"$STAND_IN/program"
  chmod +x "$STAND_IN/program"
  printf %s "$given" >"$room/given"
  rm -f "$room/out" "$STAND_IN/pid"
}

calls() {
  grep -cE "^(ci|all)" "$STAND_IN/calls"
}

# Each fact that does not hold makes the case fail.
holds() {
  "$@" || { is_well=''; printf '   does not hold: %s\n   status %s, output %s\n   errors %s\n' "$*" "$status" "$out" "$err"; }
}
equal() { [[ $1 == "$2" ]]; }
is_like() { [[ $1 == $2 ]]; }
is_gone() { ! kill -0 "$1" 2>/dev/null; }
is_empty() { [[ -z $(ls -A "$1") ]]; }
is_there() { [[ -e $1 ]]; }
is_gone_from_disk() { [[ ! -e $1 ]]; }

failed_in_one_line() {
  holds equal "$status" 70
  holds equal "$out" ""
  holds equal "$(tail -n 1 <<<"$err" | cut -c 1-6)" "sccl: "
  holds equal "$(grep -vc '^sccl: ' <<<"$err")" 0
}

nothing_is_left() {
  holds is_empty "$TMPDIR"
  holds equal "$(ls -A out | sort | tr '\n' ' ')" "${1-build.log lock sccl sccl.look sccl.sums }"
}

case_of() {
  is_well=1
  "${1// /_}"
  if [[ -n $is_well ]]; then
    passed=$((passed + 1))
  else
    failed=$((failed + 1)) && echo "FAILED: the launcher: $1"
  fi
}

# Words that start a command with signals as a terminal has them: bash has its background commands ignore some, and nohup
# one.
with_signals=(python3 -c 'import os, signal, sys
for it in (signal.SIGINT, signal.SIGQUIT, signal.SIGHUP): signal.signal(it, signal.SIG_DFL)
os.execvp(sys.argv[1], sys.argv[1:])')

wait_for() {
  for (( i = 0; i < 500; i++ )); do
    "$@" 2>/dev/null && return
    read -r -t 0.02 <> <(:)
  done
  holds "$@"
}

# Runs each function that stands in this file behind the line of its cases, but those that are named.
run_cases() {
  local name
  for name in $(sed -n '/^# --- the cases/,$ s/^\([a-z_]*\)() {$/\1/p' "$1" | grep -vE "^($2)$"); do
    case_of "$name"
  done
  echo "$passed passed, $failed failed"
  (( failed == 0 ))
}
