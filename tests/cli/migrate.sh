# Plans: the migration of old copies. Sourced by tests/cli/run.
# shellcheck shell=bash disable=SC2154,SC2086,SC2094,SC2103,SC2164

# a plan in which each number has an empty group: from a file, from standard input and from -, to standard output and to a file
printf '\203\200\000\207\000\254\202\000\200\200\000' >old
gives plan plan migrate old
gives plan plan migrate <old
gives plan plan migrate - <old
gives plan plan migrate -- old
makes made plan plan migrate old -o made
makes made plan plan migrate --output=made <old
makes made plan plan migrate made -o made
cp old replaced
makes replaced plan plan migrate replaced -o replaced

# the reference's migrated plan, which is good and stays as it is; or refused with the reference's number and place
cat >migration_cases.py <<'PYTHON'
import sys, migration
for case, expression in enumerate(sys.stdin):
    plan = eval(expression)
    number, length, place = migration.migrated_length(plan)
    open(f"{case}.old", "wb").write(plan)
    if number:
        open(f"{case}.refusal", "w").write(f"9@{place}" if number == 9 else f"{number}")
    else:
        open(f"{case}.new", "wb").write(migration.migrate(plan, length)[1])
PYTHON
mkdir migrated
(cd migrated && python3 ../migration_cases.py) <<'PLANS'
b'\x03\x07\xac\x02\x00'
b'\x00'
b'\x80\x00'
b'\x80\x80\x00'
b'\x83\x00\x07\xac\x02\x00'
b'\x01\x07'
b'\x01\x87\x00'
b'\x01\x87\x80\x00'
b'\x01\x80\x00'
b'\x01\x80\x80\x00'
b'\x01\x80\x81\x00'
b'\x01\xff\xff\x7f'
b'\x02\x87\x00\x80\x01'
b'\x80\x20' + b'\xff\xff\x7f' * 4096
b'\x80\xa0\x00' + b'\xff\x80\x00' * 4096
b'\x80\xa0\x00' + b'\xff\x80\x00' * 4095
b'\x80\xa0\x00' + b'\xff\x80\x00' * 4097
b''
b'\x80'
b'\x80\x80\x80\x00'
b'\x01\x80\x80\x80\x00'
b'\x02\x87\x00'
b'\x02\x87\x00\x80\x80\x80'
b'\x81\x20'
b'\x81\xa0\x00'
b'\x81\xa0'
b'\x81\xa0\x00' + b'\x01' * 4097
b'\x80\x00\x00'
b'\x01\x87\x00\x07'
b'\x00' * 65536
b'\x00' * 65537
PLANS
for old in migrated/*.old; do
  case=${old%.old}
  if [ -e "$case.new" ]; then
    gives "$case.new" plan migrate <"$old"
    gives "$case.new" plan migrate "$case.new"
    hailfeather plan report "$case.new" >rows.txt
    gives "$case.new" plan write rows.txt
    cmp -s "$old" "$case.new" || that "$old is reported, though it is malformed" test "$(hailfeather plan report "$old" 2>/dev/null || echo $?)" = 9
  else
    refuses plan_migrated_length "$(cat "$case.refusal")" plan migrate "$old"
    refuses plan_migrated_length "$(cat "$case.refusal")" plan migrate -o never <"$old"
  fi
done
that 'not every old plan was tried' test "$(find migrated -name '*.old' | wc -l)" = 31
that 'old plans were not both migrated and refused' test "$(find migrated -name '*.new' | wc -l)" = 15
that 'a plan was written though it was refused' test ! -e never
refuses plan_migrated_length 5 plan migrate </dev/zero

# a file that is there is replaced by a migrated plan alone
cp plan kept
refuses plan_migrated_length 9@2 plan migrate -o kept < <(printf '\002\007')
that 'a refused migration changed its file' cmp kept plan
fails 74 'nowhere' plan migrate nowhere -o never
fails 64 'too many' plan migrate old old
that 'a plan was written though none was read' test ! -e never
