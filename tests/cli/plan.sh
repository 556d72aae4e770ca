# Plans: report, lookup and write. Sourced by tests/cli/run.
# shellcheck shell=bash disable=SC2154,SC2086,SC2094,SC2103,SC2164

# report, from a file, from standard input and from -
printf 'rows 3\n1 7\n2 300\n3 0\n' >report
gives report plan report plan
gives report plan report <plan
gives report plan report - <plan
gives report plan report -- plan

# the reference's report, and back from it to the plan; or refused with the reference's number and place
while read -r expression; do
  reference "put($expression)" >case
  python3 "$repository/reference/plan.py" <case >want
  if grep -q refused want; then
    refusal=$(sed 's/refused //; s/ at /@/' want)
    refuses plan_start "$refusal" plan report case
    refuses plan_destination "$refusal" plan lookup 1 <case
    [ "${refusal%@*}" != 9 ] || refuses plan_row "$refusal:site" plan lookup 1 case --house plan
    [ "${refusal%@*}" != 9 ] || refuses plan_row "$refusal:house" plan lookup 1 plan --house case
  else
    gives want plan report <case
    gives case plan write want
  fi
done <<'PLANS'
b'\x00'
b''
b'\x01\x80\x80\x80\x00'
b'\x01\x07\x07'
b'\x03\x07\xac\x02'
b'\x80\x20' + b'\xff\xff\x7f' * 4096
b'\x81\x20' + b'\x01' * 4097
b'\x80\x20' + b'\x01' * 4097
b'\x81\xa0\x00'
b'\x81\xa0'
b'\x80\x00'
b'\x80\x80\x00'
b'\x83\x00\x07\xac\x02\x00'
b'\x87\x80\x00' + b'\x07' * 7
b'\x07' + b'\x07' * 7
b'\x01\x80\x00'
b'\x01\x80\x01'
b'\x01\x87\x00'
b'\x01\x87\x80\x00'
b'\x01\x80\x80\x00'
b'\x01\x80\x80\x01'
b'\x01\x87\x00\x07'
b'\x80\x80\x80'
b'\x02\x80\x80\x80\x80'
b'\x02\x80\x80\x00\x80'
b'\x02\x80\x80\x01\x80'
b'\x01\x80\x80\x80\x07\x07'
b'\x81\x20\x80\x80\x80'
b'\x00' * 65536
b'\x00' * 65537
PLANS
refuses plan_start 5 plan report </dev/zero
refuses plan_destination 5 plan lookup 1 </dev/zero

# lookup: numbers that 32 or 64 bits would cut to 2 are no chute 2
says 7 plan lookup 1 plan
says 300 plan lookup 2 <plan
says 300 plan lookup 002 plan
says 0 plan lookup 3 - <plan
for chute in 0 4 4096 4294967295 4294967296 4294967298 18446744073709551618 99999999999999999999999; do
  refuses plan_destination 10 plan lookup $chute plan
done
for chute in x -1 +2 2x '' 0x2; do
  fails 64 '' plan lookup "$chute" plan
done
fails 64 'CHUTE is missing' plan lookup
fails 64 'too many' plan lookup 2 plan plan

# two plans: the site plan first; the smallest number of both
printf '\001\011' >site
bytes 65537 >long
says '9 site' plan lookup 1 site --house plan
says '300 house' plan lookup 2 --house plan <site
says '300 house' plan lookup 2 site --house - <plan
says '0 house' plan lookup --house=plan 3 site
refuses plan_row 10 plan lookup 4 site --house plan
refuses plan_row 10 plan lookup 0 site --house plan
refuses plan_row 10 plan lookup 4294967297 site --house plan
refuses plan_row 9@0:house plan lookup 1 site --house /dev/null
refuses plan_row 9@0:site plan lookup 2 /dev/null --house plan
refuses plan_row 5 plan lookup 1 site --house long
refuses plan_row 5 plan lookup 1 /dev/null --house /dev/zero
refuses plan_row 5 plan lookup 1 /dev/zero --house /dev/null

# where a plan is malformed: in words, 3,000 rows of which the last is cut, and both plans of two
run plan report < <(printf '\001\200\200\200\000')
that 'the place is not in words' grep -qx 'refused 9 at byte 3: the plan is malformed' err
seq 3000 | hailfeather plan write -o rows.plan && head -c -1 rows.plan >short.plan
refuses plan_start "9@$(stat -c %s short.plan)" plan report short.plan
printf '\000\000' >after.plan
refuses plan_row 9@1:site plan lookup 1 after.plan --house short.plan
refuses plan_row "9@$(stat -c %s short.plan):site" plan lookup 1 short.plan --house after.plan
refuses plan_row "9@$(stat -c %s short.plan):house" plan lookup 1 site --house short.plan

# a number in more groups than it needs: the last of them, before what the number's value breaks, and of two plans the one that has it
printf '\001\207\000' >padded.plan
refuses plan_start 9@2 plan report padded.plan
refuses plan_destination 9@2 plan lookup 1 padded.plan
refuses plan_row 9@2:site plan lookup 1 padded.plan --house plan
refuses plan_row 9@2:house plan lookup 1 plan --house padded.plan
refuses plan_start 9@2 plan report < <(printf '\201\240\000')
refuses plan_start 9@0 plan report < <(printf '\201\040')
fails 64 'cannot both be read' plan lookup 1 --house - <plan

# write: every way to say the same rows
while read -r text; do
  # shellcheck disable=SC2059
  gives plan plan write < <(printf "$text")
done <<'TEXTS'
7\n300\n0\n
7\n300\n0
1 7\n2 300\n3 0\n
7\n2 300\n0\n
rows 3\n7\n300\n0\n
\n# hall 2\n  rows 3\r\n\n1\t7\r\n  # line 1\n 2  300 \n3 0\n
007\n300\n3 000\n
TEXTS
makes made plan plan write report -o made
makes made plan plan write - -o made <report
gives plan plan write < <(hailfeather plan report plan)
printf '\0' >none
gives none plan write
gives none plan write < <(printf 'rows 0\n')

# write: text that breaks the rules, with the line's number
while IFS=: read -r line text; do
  # shellcheck disable=SC2059
  fails 65 "standard input: line $line: " plan write < <(printf "$text")
done <<'TEXTS'
1:x\n
2:7\n-1\n
2:7\n0x10\n
3:7\n# two follow\n1 300\n
3:7\n\n3 300\n
1:0 7\n
1:4294967297 7\n
1:1 2 3\n
1:rows 2\n7\n
2:\nrows 2\n7\n8\n9\n
1:rows\n
1:rows x\n7\n
2:7\nrows 1\n
2:rows 1\nrows 1\n7\n
1:7,300\n
1:\0377\n
1:7 # the first\n
TEXTS
printf '7\nx\n' >bad
fails 65 'bad: line 2: ' plan write bad -o never
that 'a plan was written from malformed text' test ! -e never

# write: the library's refusals on both sides, and numbers that 32 or 64 bits would cut to 7
gives <(printf '\001\377\377\177') plan write < <(echo 2097151)
for destination in 2097152 4294967295 4294967296 4294967303 18446744073709551623 99999999999999999999999; do
  refuses plan_length 9 plan write < <(echo $destination)
done
seq 4096 >many
gives <(echo 'rows 4096'; seq 4096 | sed 's/.*/& &/') plan report < <(hailfeather plan write many)
refuses plan_length 9 plan write < <(seq 4097)
refuses plan_length 9 plan write < <(echo rows 4097; seq 4097)
refuses plan_length 9 plan write < <(echo rows 9999; seq 9999)
fails 65 'line 1: ' plan write < <(echo rows 3; seq 9999)
fails 65 'line 1: ' plan write < <(echo rows 4096; seq 4097)

# write: an endless text ends
refuses plan_length 9 plan write < <(yes 7)
fails 65 'longer than' plan write < <(yes '# no row')
fails 65 'longer than' plan write < <(yes 7 | tr -d '\n')
fails 65 'line 1' plan write </dev/zero
