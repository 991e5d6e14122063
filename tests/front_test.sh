#!/usr/bin/env bash
# The front door, ./gresomund, called from another folder: files by the caller's folder, commands by name, exit statuses, hints.
# What it runs must be built (`./gresomund bench`, `./gresomund lib`), else it is built here first. Last line 'N passed, M failed'.
set -u
top=$(cd "$(dirname "${BASH_SOURCE[0]}")/.." && pwd -P)
door=$top/gresomund
passed=0 failed=0
room=$(mktemp -d) || exit 2
trap 'rm -rf "$room"' EXIT
mkdir "$room/below"
cd "$room/below" || exit 2

run() { # STANDARD-INPUT WORDS..: leaves status, and out and err as files
  local input=$1
  shift
  "$door" "$@" <"$input" >"$room/out" 2>"$room/err"
  status=$?
}
check() { # NAME CONDITION..
  local name=$1
  shift
  if "$@"; then
    passed=$((passed + 1))
    printf 'ok %s\n' "$name"
  else
    failed=$((failed + 1))
    printf 'FAILED %s (exit status %s)\n' "$name" "$status"
    sed 's/^/    /' "$room/out" "$room/err" | tail -n 8
  fi
}
ends() { [ "$status" -eq "$1" ]; }
says() { grep -qF -- "$1" "$room/err"; }
same() { cmp -s "$room/out" "$top/examples/$1"; }
silent() { [ ! -s "$room/err" ]; }

cp "$top/examples/02-packet-sent.bench" here.bench
cp "$top/examples/02-packet-sent.txt" here.txt
cp "$top/examples/03-frame-two-buffers.bench" "$room/up and away.bench"
head -c 40 here.bench >cut.bench
printf 'XX' | cat here.bench - >late.bench

run /dev/null bench here.bench # builds it where it is missing
run /dev/null bench here.bench
check "a file of the caller's folder" ends 0
check "prints what the example prints" same 02-packet-sent.out
check "and nothing beside it" silent
run /dev/null bench "../up and away.bench"
check "a file above, with blanks in its name" same 03-frame-two-buffers.out
run /dev/null bench "$room/below/here.bench"
check "a file by its whole path" same 02-packet-sent.out
run here.bench bench
check "standard input" same 02-packet-sent.out
"$door" bench < <(cat here.bench) >"$room/out" 2>"$room/err"
status=$?
check "standard input that is a pipe" same 02-packet-sent.out
run /dev/null bench "$top/examples/traces/clean-eoq.bench"
check "a long file: exit status 0" ends 0
check "a long file: all of it" [ "$(tail -n 1 "$room/out")" = "sent 573550 received 182723" ]

run /dev/null bench examples/01-example.bench
check "a file of the repository is not one of the caller's folder: 2" ends 2
check "which is said" says "there is no file examples/01-example.bench to read in $PWD"
run /dev/null bench ..
check "a folder is no file: 2" ends 2
run /dev/null bench here.bench cut.bench
check "two files: 2" ends 2

run /dev/null bench cut.bench
check "a cut record: 1" ends 1
check "a cut record is no text" silent
check "the lines before it stay" [ "$(tail -n 1 "$room/out")" = "bad record 38" ]
run /dev/null bench late.bench
check "a bad record behind good ones: 1" ends 1
run /dev/null bench
check "empty input: 1" ends 1
check "empty input is no text" silent
run /dev/null bench here.txt
check "a text: 1" ends 1
check "a text: bad record 0" [ "$(cat "$room/out")" = "bad record 0" ]
check "a text: how it becomes a bench file" says "tools/benchtext.py pack"
run here.txt bench
check "a text on standard input: how it becomes a bench file" says "tools/benchtext.py pack"

run /dev/null bnech
check "an unknown command: 2" ends 2
check "an unknown command is named" says "there is no command bnech"
check "and what there is" says "usage: ./gresomund COMMAND"
run /dev/null help
check "help: 0" ends 0
run /dev/null
check "no command: help" ends 0
run /dev/null fuzz soon
check "fuzz without a number: 2" ends 2

run /dev/null lib
check "lib: 0" ends 0
check "lib says where the archive is" grep -qF "$top/target/lib/libgresomund.a" "$room/out"
check "lib says where the header is" grep -qF "$top/include/gresomund.h" "$room/out"
check "lib says where the board's object is" grep -qF "$top/target/lib/gresomund-armv7.o" "$room/out"
check "the archive is there" [ -s "$top/target/lib/libgresomund.a" ]
check "the board's object is there" [ -s "$top/target/lib/gresomund-armv7.o" ]

# without cargo on the PATH, and with an apt-get that installs nothing: asked for before anything is proved
mkdir "$room/bin"
for c in bash dirname readlink uname python3 rt cat env; do ln -s "$(command -v "$c")" "$room/bin/$c"; done
printf '#!/bin/sh\nexit 1\n' >"$room/bin/apt-get"
chmod +x "$room/bin/apt-get"
for command in test speed "fuzz 1"; do
  # shellcheck disable=SC2086
  PATH=$room/bin "$door" $command </dev/null >"$room/out" 2>"$room/err"
  status=$?
  check "$command without its compilers: 2" ends 2
  check "$command says what is missing" grep -qE 'the command (cargo|gcc) is missing' "$room/err"
  check "$command has proved nothing before that" [ -z "$(grep -E '^rt:|proving' "$room/out" "$room/err")" ]
done

# the program's own exit status comes through: in a repository of the front door alone, whose bench is a shell
mkdir -p "$room/other/crates" "$room/other/target/bin"
cp "$door" "$room/other/gresomund"
: >"$room/other/crates.txt"
cp "$(readlink -f "$(command -v sh)")" "$room/other/target/bin/bench"
door=$room/other/gresomund
echo 'echo fine' >fine.sh
printf 'echo some lines\nexit 7\n' >seven.sh
run fine.sh bench
check "a bench that is a shell" [ "$status $(cat "$room/out")" = "0 fine" ]
run seven.sh bench
check "an exit status of the bench itself is kept" ends 7

printf '%d passed, %d failed\n' "$passed" "$failed"
[ "$failed" -eq 0 ]
