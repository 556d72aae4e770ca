# The help: it is there for every command, its examples work as they stand, and its refusals are the library's. Sourced by tests/cli/run.
# shellcheck shell=bash disable=SC2154,SC2086,SC2094,SC2103,SC2164

# examples FILE: the lines of a shell among a help's examples, with what they print behind a hash sign
examples() {
  awk '/^(Examples|Head office.*):$/ { on = 1; next } /^[^ ]/ { on = 0 } on { sub(/^    /, ""); print }' "$1"
}

# try NAME: runs the examples of the help in the file out as one script in an empty directory, and compares what it prints
try() {
  examples out >all
  grep '^# ' all | sed 's/^# //' >want
  grep -v '^# ' all >script
  that "$1 has too few examples" test "$(grep -c 'hailfeather' script)" -ge 2 -a -s want
  rm -rf empty
  mkdir empty
  status=0
  (cd empty && bash -euo pipefail ../script) >printed 2>err || status=$?
  that "status $status of the examples of $1: $(head -c 300 err)" test "$status" = 0
  that "the examples of $1 print something else" cmp printed want
  that "the examples of $1 lose a refusal in a pipe" test -z "$(grep -E 'hailfeather .*[^|][|]([^|]|$)' script)"
}

run --version
that 'wrong version' grep -qx 'hailfeather [0-9]*\.[0-9]*\.[0-9]*' out
for word in --help -h; do
  run $word
  that "status $status of $word" test "$status" = 0 -a ! -s err
  for command in 'plan report' 'plan lookup' 'plan write' 'plan migrate' 'hall report' 'hall lookup' 'hall write' seal open cshake kmac draw; do
    that "$word does not tell of $command" grep -q "^    $command  *[a-z]" out
  done
done
that '--help does not tell of timing' grep -q '^Timing: .*may depend on secrets' out
that '--help does not tell of pipes' grep -q '^Pipes: .*the status of the last' out
that '--help does not tell of line feeds' grep -q '^Bytes: .*a final line feed too, except in the -hex-file forms' out
try --help
# its refusals, in a shell as it comes: the status is that of the command that was refused, and nothing after it is done
refused_in_example() {
  rm -rf empty
  mkdir empty
  status=0
  (cd empty && sed "$2" ../script | bash) >printed 2>err || status=$?
  that "status $status, not $1, of the example with a refusal" test "$status" = "$1" -a ! -s printed -a ! -e "empty/$3"
}
refused_in_example 9 's/7\\n/2097152\\n/' plan.sealed
refused_in_example 8 "/open/s/plan 1/plan 2/" opened.plan
for group in plan=4 hall=3; do
  run ${group%=*} --help
  that "${group%=*} --help has not all of its commands" test "$status" = 0 -a "$(grep -c "^    hailfeather ${group%=*} .*\[.*\]$" out)" = ${group#*=}
done

while IFS=: read -r command entries; do
  run $command --help
  that "status $status of $command --help" test "$status" = 0 -a ! -s err
  that "$command --help has no purpose" grep -q "^hailfeather $command: [a-z]" out
  that "$command --help has no usage" grep -q "^    hailfeather $command .*\[.*\]$" out
  for entry in $entries; do
    words=$(sed -n "s/^${entry%=*} ${entry#*=} //p" "$repository/include/refusals.txt")
    that "$command --help does not have refusal $entry" grep -Eqx " +${entry#*=}  $words" out
  done
  that "$command --help lists a refusal twice" test -z "$(grep -E '^ +[0-9]+  ' out | sort | uniq -d)"
  try "$command --help"
done <<'COMMANDS'
plan report:plan_start=5 plan_start=9
plan lookup:plan_destination=5 plan_destination=9 plan_destination=10 plan_row=5 plan_row=9 plan_row=10
plan write:plan_length=9
plan migrate:plan_migrated_length=5 plan_migrated_length=9
hall report:hall_read=5 hall_read=9
hall lookup:hall_destination=5 hall_destination=9 hall_destination=10
hall write:hall_length=5 hall_length=9
seal:seal=2 seal=3 seal=5 seal=7
open:open=2 open=3 open=5 open=7 open=8
cshake:session_cshake256=3 session_cshake256=4 take=5 give=6
kmac:kmac256=2 kmac256=3 kmac256=5 kmac256=6 take=5 give=6
draw:seed=3 seed=5 draw=3 draw=6
COMMANDS

# who has an old copy that is refused with 9 finds what writes it anew
for command in 'plan report' 'plan lookup'; do
  run $command --help
  that "$command --help does not lead to plan migrate" grep -q '^An old copy.* is written anew by hailfeather plan migrate' out
done
run hall report --help
that 'hall report --help does not tell that hall plans are not migrated' grep -q 'hailfeather plan migrate is for chute plans alone' out
run plan migrate --help
that 'plan migrate --help does not tell that hall plans are not migrated' grep -q 'Hall plans are not migrated' out

for command in seal open; do
  run $command --help
  that "$command --help does not tell what the tag covers" grep -q 'covers ciphertext and label joined, not the place where' out
done
