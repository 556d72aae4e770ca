# Usage, secrets, and files that appear whole or not at all. Sourced by tests/cli/run.
# shellcheck shell=bash disable=SC2154,SC2086,SC2094,SC2103,SC2164

# keys and seeds are never arguments, and what was typed is not shown
for word in --key --key-hex; do
  fails 64 "$word is not taken, since every user of the machine" seal $word hush --iv x plan
  fails 64 '--key-file FILE or --key-hex-file FILE' kmac $word=hush plan
  that 'a key is shown' test -z "$(grep hush err)"
done
fails 64 'every user of the machine' draw --seed hush --length 1
fails 64 'every user of the machine' draw --seed-hex=00 --length 1

# usage errors name what is wrong and point to the help of the command
fails 64 'a command is missing'
fails 64 'no command polish' polish
fails 64 'report, lookup, write or migrate' plan
fails 64 'report, lookup, write or migrate' plan polish
fails 64 'plan has to be followed by report, lookup, write or migrate' plan
fails 64 'plan has to be followed by report, lookup, write or migrate' plan polish
fails 64 'hall has to be followed by report, lookup or write' hall
fails 64 'hall has to be followed by report, lookup or write' hall polish
fails 64 'hall has to be followed by report, lookup or write' hall migrate
fails 64 'no command halls' halls report
fails 64 'no option --rows' plan report --rows plan
that 'no hint at the help' grep -q '^hailfeather: hailfeather plan report --help says more$' err
fails 64 '--key-file FILE or --key-hex-file FILE is missing' seal --iv x plan
fails 64 '--iv TEXT or --iv-hex HEX or --iv-file FILE is missing' seal --key-file key plan
fails 64 'the same thing' open --key-file key --iv x --iv-hex 00 sealed
fails 64 'the same thing' kmac --key-file key --key-file key
fails 64 'followed by TEXT' seal --key-file key --iv
fails 64 'takes no value' cshake --raw=yes
fails 64 'too many' cshake plan plan
fails 64 '--key-file and TEXT-FILE cannot both be read' seal --key-file - --iv x
fails 64 '--iv-file and --label-file cannot both be read' seal --key-file key --iv-file - --label-file - plan
fails 64 '--key-file and FILE cannot both be read' kmac --key-file - -

# files that cannot be read
for file in missing . plan/x; do
  fails 74 "$file: .*(os error" plan report "$file"
  fails 74 "$file: .*(os error" seal --key-file "$file" --iv x plan -o never
  fails 74 "$file: .*(os error" cshake --customisation-file "$file"
done
fails 74 'standard input: .*(os error' plan report <.

# a file is replaced whole, through a link too, and a refusal or an error leaves it as it was
mkdir place
cd place
cp ../{key,plan,sealed} .
printf 'old\n' | tee old new >../old
ln -s new link
listing=$(ls -A)
hailfeather seal --key-file key --iv 'depot 7' --label 'plan 1' plan >want
makes link want seal --key-file key --iv 'depot 7' --label 'plan 1' plan -o link
that 'a link was replaced' test -L link
that "the link's file was not replaced" cmp new want
makes new plan open --key-file key --iv 'depot 7' --label 'plan 1' want -o new
rm -f want out err said
refuses open 8 open --key-file key --iv 'depot 8' sealed -o old
refuses seal 7 seal --key-file key --iv x --tag-length 15 plan -o old
refuses seal 7 seal --key-file key --iv x --tag-length 15 --tag-file tag plan -o old
refuses plan_length 9 plan write -o old < <(echo 2097152)
refuses hall_length 9 hall write -o old < <(echo 2097152)
refuses kmac256 6 kmac --key-file key --length 0 plan -o old
refuses draw 6 draw --seed-file key --length 99999999999 -o old
fails 65 'line 1' plan write -o old < <(echo x)
fails 65 'line 1' hall write -o old < <(echo x)
fails 74 missing cshake missing -o old
run open --key-file key --iv 'depot 8' sealed -o never
rm -f out err said
that 'a refusal changed a file' cmp old ../old
that 'a refusal left a file' test "$(ls -A)" = "$listing"

# places that cannot be written; a write that fails midway
mkdir -m 555 ../locked
denied=../locked/never
[ "$(id -u)" != 0 ] || denied=/sys/never # root may write everywhere else
for file in $denied missing/never plan/never; do
  fails 74 "$file: .*(os error" cshake plan -o "$file"
  fails 74 "$file: .*(os error" seal --key-file key --iv x --tag-file tag plan -o "$file"
  fails 74 "$file: .*(os error" seal --key-file key --iv x --tag-file "$file" plan -o old
done
fails 74 'directory' cshake plan -o .
status=0
(trap '' XFSZ; ulimit -f 8; hailfeather cshake --length 100000 --raw plan -o old 2>err) || status=$?
that 'a write that failed midway was not told' test "$status" = 74 -a "$(grep -c 'File too large' err)" = 1
rm -f out err said
that 'an error changed a file' cmp old ../old
that 'an error left a file' test "$(ls -A)" = "$listing"
cd ..

# a link that leads to nothing stays a link too: what it names is made; one that leads nowhere at all is an error, and stays
mkdir far
hailfeather cshake plan >want
ln -s far/made first
ln -s first second
ln -s "$PWD/far/other" third
ln -s ../far/up far/fourth
for pair in first:far/made second:far/made third:far/other far/fourth:far/up; do
  makes ${pair#*:} want cshake plan -o ${pair%:*}
  that "${pair%:*} was replaced" test -L ${pair%:*}
  rm -f ${pair#*:}
done
fails 64 'a file of its own' seal --key-file key --iv x --tag-file first plan -o far/made
ln -s missing/made astray
fails 74 'missing/made: .*(os error' cshake plan -o astray
ln -s turn round
ln -s round turn
fails 74 '\(round\|turn\): .*(os error' cshake plan -o round
that 'a link that leads nowhere was replaced' test -L astray -a -L round -a -L turn
that 'a link that leads nowhere left a file' test "$(ls -A far)" = fourth -a ! -e missing

# what is no file is written where it stands; - is standard output. The pipe is one of this directory and never a device: a tool that goes wrong may replace
# what -o names, and as root that would be the machine's own /dev/null
mkfifo pipe
timeout 20 cat pipe >piped &
gives /dev/null open --key-file key --iv 'depot 7' --label 'plan 1' sealed -o pipe
that 'a pipe was replaced by a file' test -p pipe
wait $! || true
that 'wrong bytes in a pipe' cmp piped plan
gives plan open --key-file key --iv 'depot 7' --label 'plan 1' sealed -o -

# reading stops one byte past the limit
left() {
  that "$2 bytes are not left by: ${*:3}" test "$(bytes "$1" >long; { hailfeather "${@:3}" 2>/dev/null || true; wc -c; } <long)" = "$2"
}
left 70000 $((70000 - 65537)) plan report
left 70000 $((70000 - 65537)) hall report
left 70000 $((70000 - 65537)) hall lookup 1
left $((most + 70000)) $((70000 - 1)) cshake
left $((most + 70000)) $((70000 - 1)) kmac --key-file key
left $((most + 70000)) $((70000 - 1)) seal --key-file key --iv x
left $((most + 70000)) $((70000 - 33)) open --key-file key --iv x
left 70000 $((70000 - 33)) seal --key-file - --iv x plan
left 70000 $((70000 - 4097)) seal --key-file key --iv-file - plan
left 70000 $((70000 - 85)) draw --seed-file key --additional-file - --length 1
rm -f long

# who may read: as with the file that is replaced, else as with any new file; the owner alone of opened text, drawn bytes and raw codes
# mode WANTED BEFORE ARGUMENTS..: the mode of a file that replaces one of mode BEFORE, or that is new where BEFORE is -
mode() {
  rm -f moded
  [ "$2" = - ] || install -m "$2" key moded
  (umask 027; hailfeather "${@:3}" -o moded </dev/null)
  that "mode $(stat -c %a moded), not $1, after $2, of: ${*:3}" test "$(stat -c %a moded)" = "$1"
  that "a file was not replaced by: ${*:3}" test "$(cmp moded key >same 2>&1; echo $?)" = 1
}
for arguments in 'seal --key-file key --iv x plan' 'plan write' 'hall write' 'cshake --raw plan' 'cshake plan' 'kmac --key-file key' \
  'kmac --key-file key --hex'; do
  mode 640 - $arguments
  for before in 600 644 666 755 400; do
    mode $before $before $arguments
  done
done
hailfeather seal --key-file key --iv x plan -o sealed.x
for arguments in 'open --key-file key --iv x sealed.x' 'draw --seed-file key --length 9' 'draw --seed-file key --length 9 --hex' \
  'kmac --key-file key --raw' 'kmac --key-file key --raw --xof'; do
  mode 600 - $arguments
  for before in 600 644 666 755; do
    mode 600 $before $arguments
  done
  mode 400 444 $arguments
done
install -m 604 key moded
ln -s moded linked
hailfeather seal --key-file key --iv x --tag-file linked plan -o sealed.x
that 'the mode of a tag file, through a link, was not kept' test "$(stat -c %a moded)" = 604 -a "$(stat -c %s moded)" = 32

# standard output that is full or closed, and standard error that is closed: a status, and no panic
closed() {
  status=0
  "${@:2}" 2>err || status=$?
  that "status $status of: ${*:2}" test "$status" = "$1" -a -z "$(grep panic err)"
}
to_full() { hailfeather "$@" >/dev/full; }
to_head() { hailfeather "$@" | head -c 1 >/dev/null; }
without_error() { hailfeather "$@" 2>&-; }
for arguments in 'plan report plan' 'plan lookup 2 plan' 'plan write report' 'hall report halls' 'hall lookup 2 halls' 'hall write halls.txt' 'cshake plan' \
  'cshake --raw' 'draw --seed-file key --length 9' --help 'seal --help'; do
  closed 74 to_full $arguments
  that 'the system says nothing' grep -q 'standard output: No space' err
done
closed 74 to_full seal --key-file key --iv x --tag-file untold plan
that 'a tag is left of a ciphertext that was not written' test ! -e untold
closed 74 to_head cshake --length $most --raw
closed 74 to_head cshake --length $most
closed 74 to_head draw --seed-file key --length $most
closed 9 without_error plan report /dev/null
closed 64 without_error

# raw bytes are not written to a terminal; digits and text are
terminal() { python3 -c 'import os, pty, sys; sys.exit(os.waitstatus_to_exitcode(pty.spawn(sys.argv[1:])))' hailfeather "$@" >out; }
for arguments in 'plan write report' 'hall write halls.txt' 'seal --key-file key --iv x plan' 'open --key-file key --iv x sealed' 'cshake --raw plan' \
  'kmac --raw --key-file key plan' 'draw --seed-file key --length 9' 'draw --seed-file key --length 9 --raw -o -'; do
  closed 64 terminal $arguments
  that 'no advice about the terminal' grep -q 'not written to a terminal: give -o FILE' out
done
for arguments in 'plan report plan' 'hall report halls' 'cshake plan' 'kmac --hex --key-file key plan' 'draw --seed-file key --length 9 --hex' \
  'plan write report -o made' 'hall write halls.txt -o made'; do
  closed 0 terminal $arguments
done
