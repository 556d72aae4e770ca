# Sealed files that are damaged or opened with something else, and tags in files of their own. Sourced by tests/cli/run.
# shellcheck shell=bash disable=SC2154,SC2086,SC2094,SC2103,SC2164

hailfeather seal --key-file key --iv 'depot 7' --label 'plan 1' plan -o sealed

# each byte with a bit flipped, each shorter length, and a byte more
for place in {0..36}; do
  python3 -c "import sys; b = bytearray(open('sealed', 'rb').read()); b[$place] ^= 1 << $place % 8; sys.stdout.buffer.write(b)" >damaged
  refuses open 8 open --key-file key --iv 'depot 7' --label 'plan 1' damaged
done
for length in {32..36}; do
  refuses open 8 open --key-file key --iv 'depot 7' --label 'plan 1' < <(head -c "$length" sealed)
done
for length in 0 1 5 16 31; do
  fails 65 "standard input: $length bytes are too few for a tag of 32" open --key-file key --iv 'depot 7' --label 'plan 1' < <(head -c "$length" sealed)
done
refuses open 8 open --key-file key --iv 'depot 7' --label 'plan 1' < <(cat sealed; printf '\0')
refuses open 8 open --key-file key --iv 'depot 7' --label 'plan 1' < <(printf '\0'; cat sealed)

# another key, IV, label or length of tag
bytes 32 >other
refuses open 8 open --key-file other --iv 'depot 7' --label 'plan 1' sealed
refuses open 8 open --key-file key --iv 'depot 8' --label 'plan 1' sealed
refuses open 8 open --key-file key --iv 'depot 7' --label 'plan 2' sealed
refuses open 8 open --key-file key --iv 'depot 7' sealed
refuses open 8 open --key-file key --iv 'depot 7' --label 'plan 1' --tag-length 16 sealed
refuses open 8 open --key-file key --iv 'depot 7' --label 'plan 1' --tag-length 33 sealed
fails 65 'too few' open --key-file key --iv 'depot 7' --label 'plan 1' --tag-length 64 sealed

# the tag covers ciphertext and label joined: the end of the ciphertext can be given as the beginning of the label
{ head -c 3 sealed; tail -c 32 sealed; } >shorter
head -c 3 plan >want
gives want open --key-file key --iv 'depot 7' --label-file <(head -c 5 sealed | tail -c 2; printf 'plan 1') shorter
refuses open 8 open --key-file key --iv 'depot 7' --label 'plan 1' shorter

# the tag in a file of its own
head -c 5 sealed >want.text
tail -c 32 sealed >want.tag
makes made want.text seal --key-file key --iv 'depot 7' --label 'plan 1' --tag-file tag plan -o made
that 'wrong tag in the file' cmp tag want.tag
rm tag
gives want.text seal --key-file key --iv 'depot 7' --label 'plan 1' --tag-file=tag <plan
that 'wrong tag in the file' cmp tag want.tag
gives plan open --key-file key --iv 'depot 7' --label 'plan 1' --tag-file tag made
gives plan open --key-file key --iv 'depot 7' --label 'plan 1' --tag-file tag <made
gives plan open --key-file key --iv 'depot 7' --label 'plan 1' --tag-file - made <tag
makes made want.text seal --key-file key --iv 'depot 7' --label 'plan 1' --tag-length 64 --tag-file tag plan -o made
for length in 16 33 64; do # a shorter tag is the beginning of a longer one
  gives plan open --key-file key --iv 'depot 7' --label 'plan 1' --tag-file <(head -c $length tag) made
done
for length in 0 15; do
  refuses open 7 open --key-file key --iv 'depot 7' --label 'plan 1' --tag-file <(head -c $length tag) made
done
refuses open 7 open --key-file key --iv 'depot 7' --label 'plan 1' --tag-file <(cat tag; printf '\0') made
refuses open 7 open --key-file key --iv 'depot 7' --label 'plan 1' --tag-file /dev/zero made
refuses open 8 open --key-file key --iv 'depot 7' --label 'plan 1' --tag-file other made
refuses open 5 open --key-file key --iv 'depot 7' --tag-file tag </dev/zero
refuses open 8 open --key-file key --iv 'depot 7' --tag-file tag < <(bytes $most)
refuses open 5 open --key-file key --iv 'depot 7' --tag-file tag < <(bytes $((most + 1)))
# --tag-length demands the length of the tag file, of which any beginning would match
for length in 16 33 64; do
  gives plan open --key-file key --iv 'depot 7' --label 'plan 1' --tag-length $length --tag-file <(head -c $length tag) made
  for other in 0 15 16 32 33 63 64 65 1000; do
    [ $other != $length ] || continue
    cat tag <(bytes 1000) | head -c $other >cut.tag || true
    fails 65 "cut.tag: the tag is not $length bytes long, as --tag-length demands" \
      open --key-file key --iv 'depot 7' --label 'plan 1' --tag-length $length --tag-file cut.tag made
  done
done
fails 65 'standard input: the tag is not 64' open --key-file key --iv 'depot 7' --tag-length 64 --tag-file - made </dev/zero
refuses open 8 open --key-file key --iv 'depot 7' --label 'plan 1' --tag-length 32 --tag-file other made
for length in 0 15 65 4294967360 99999999999999999999999; do # no tag has this length, whatever the file has
  refuses open 7 open --key-file key --iv 'depot 7' --label 'plan 1' --tag-length $length --tag-file tag made
  refuses open 7 open --key-file key --iv 'depot 7' --label 'plan 1' --tag-length $length --tag-file <(bytes ${length:0:2}) made
done
fails 64 'decimal digits' open --key-file key --iv 'depot 7' --tag-length x --tag-file tag made
fails 64 'cannot both be read' open --key-file key --iv 'depot 7' --tag-file - <tag
for name in - made ./made "$PWD/made"; do
  fails 64 'a file of its own' seal --key-file key --iv 'depot 7' --tag-file "$name" plan -o made
done
that 'a usage error changed a file' cmp made want.text
