# Hall plans: report and lookup, and back from the report by write. Sourced by tests/cli/run.
# shellcheck shell=bash disable=SC2154,SC2086,SC2094,SC2103,SC2164

printf '\002\001\002\000\007\000\254\002\000\000' >halls
printf 'chutes 3\nhall\n  1 7\n  2 300\n3 0\n' >halls.txt

# report, from a file, from standard input and from -
gives halls.txt hall report halls
gives halls.txt hall report <halls
gives halls.txt hall report - <halls
gives halls.txt hall report -- halls

# For each expression over the reference's halls, one a line, a plan NUMBER.plan, and its report NUMBER.txt or its refusal and its place NUMBER.refusal.
# deep(8, [5]) has 8 levels and a chute on the last of them, wide(8, 4) has 8 levels of 4 halls each.
cat >cases.py <<'PYTHON'
import sys, hall
def deep(levels, entries):
    return entries if levels == 1 else [deep(levels - 1, entries)]
def wide(levels, halls):
    return [] if levels == 1 else [wide(levels - 1, halls)] * halls
def lines(entries, chute, indentation):
    for entry in entries:
        if isinstance(entry, list):
            yield indentation + "hall\n"
            chute = yield from lines(entry, chute, indentation + "  ")
        else:
            chute += 1
            yield f"{indentation}{chute} {entry}\n"
    return chute
for case, expression in enumerate(sys.stdin):
    plan = eval(expression)
    found = hall.reading(plan)
    report = [f"chutes {len(hall.destinations(found.content))}\n", *lines(found.content, 0, "")]
    open(f"{case}.plan", "wb").write(plan)
    if found.number:
        open(f"{case}.refusal", "w").write(f"9@{found.place}" if found.number == 9 else f"{found.number}")
    else:
        open(f"{case}.txt", "w").writelines(report)
PYTHON
mkdir cases
(cd cases && python3 ../cases.py) <<'PLANS'
b'\x00'
b''
b'\x01\x01\x00'
hall.bytes_of([[[], [], [[]]], []])
hall.bytes_of(deep(8, []) + [5])
hall.bytes_of(deep(8, [5]) + [6])
hall.bytes_of(deep(9, []))
hall.bytes_of(deep(9, [5]))
hall.bytes_of(wide(8, 4))
hall.bytes_of([[2097151] * 2048, [], [[8] * 2047, 9], []])
hall.bytes_of([[2097151] * 2048, [], [[8] * 2047, 9], [1]])
hall.bytes_of([7] * 4096)
hall.bytes_of([7] * 4097)
b'\x01\x02\x00'
b'\x01\x80\x02\x00'
b'\x01\x81\x02\x00'
b'\x81\x00\x81\x80\x00\x82\x00\x80\x80\x00\x87\x00\x80\x00\xac\x82\x00'
b'\x01\x82\x80\x00\x00'
b'\x01\x82\x80\x01\x00'
b'\x80\x00'
b'\x80\x80\x00'
b'\x01\x80\x00\x07'
b'\x01\x81\x00\x00'
b'\x01\x82\x00\x00'
b'\x01\x00\x87\x00'
b'\x01\x00\x87\x80\x00'
b'\x01\x01\x80\x00'
b'\x01\x00\x80\x80\x01'
b'\x02\x00\x07'
b'\x01\x01\x02\x00\x07'
b'\x01\x01\x01\x00\x07\x00\x08'
b'\x02\x01\x02\x00\x07\x00\xac\x02\x00\x00\x00'
b'\x02\x01\x02\x00\x07\x00\xac\x02\x00'
b'\x01\x00\x80\x80\x80\x00'
b'\x01\x02\x80'
b'\x01\x82'
b'\x03\x02\x00\x00\x80\x80\x80'
b'\x03\x00\x80\x80\x80\x02\x00'
b'\x01' * 15 + b'\x01'
b'\x01' * 15 + b'\x81'
b'\x01' * 15 + b'\x81\x00\x00'
b'\x81\x20' + b'\x00' * 8193
b'\x81\x20' + b'\x00' * 8192 + b'\x80'
b'\x81\x20' + b'\x00' * 8192 + b'\x80\x00\x00'
b'\x00' * 65536
b'\x00' * 65537
hall.bytes_of([[]] * 32765 + [128])
hall.bytes_of([[]] * 32765 + [16384])
PLANS
for plan in cases/*.plan; do
  case=${plan%.plan}
  if [ -e "$case.txt" ]; then
    gives "$case.txt" hall report <"$plan"
    gives "$plan" hall write "$case.txt"
    while read -r chute destination; do
      says "$destination" hall lookup "$chute" "$plan"
    done < <(grep -E '^ *[0-9]' "$case.txt" | awk 'NR % 1024 == 1')
    refuses hall_destination 10 hall lookup 0 "$plan"
    refuses hall_destination 10 hall lookup $(($(sed -n 's/^chutes //p' "$case.txt") + 1)) "$plan"
  else
    refuses hall_read "$(cat "$case.refusal")" hall report "$plan"
    refuses hall_destination "$(cat "$case.refusal")" hall lookup 1 <"$plan"
  fi
done
that 'not every hall plan was tried' test "$(find cases -name '*.plan' | wc -l)" = 48
refuses hall_read 5 hall report </dev/zero
refuses hall_destination 5 hall lookup 1 </dev/zero

# what promises 2,097,151 entries and has none, and the longest plans, are answered at once
at_once() {
  that "status or time of: ${*:2}" test "$(timeout 2 hailfeather "${@:2}" >/dev/null 2>&1; echo $?)" = "$1"
}
for promise in '\377\377\177' '\001\001\377\377\177' '\377\377\177\001\377\377\177'; do
  # shellcheck disable=SC2059
  printf "$promise" >promise
  at_once 9 hall report promise
  at_once 9 hall lookup 1 promise
done
python3 -c "import hall, sys; sys.stdout.buffer.write(hall.bytes_of([[]] * 32765 + [128]))" >longest
that 'the longest plan is not that long' test "$(stat -c %s longest)" = 65536
at_once 0 hall report longest
at_once 0 hall lookup 1 longest
hailfeather hall report longest >longest.txt
at_once 0 hall write longest.txt -o made

# lookup: numbers that 32 or 64 bits would cut to 2 are no chute 2
says 300 hall lookup 2 halls
says 300 hall lookup 002 <halls
says 0 hall lookup 3 - <halls
for chute in 0 4 4096 4294967295 4294967296 4294967298 18446744073709551618 99999999999999999999999; do
  refuses hall_destination 10 hall lookup $chute halls
done
for chute in x -1 +2 2x '' 0x2; do
  fails 64 '' hall lookup "$chute" halls
done
fails 64 'CHUTE is missing' hall lookup
fails 64 'too many' hall lookup 2 halls halls
fails 64 'no option --house' hall lookup 2 halls --house halls
