# Drawing from either generator: answers of the reference, refusals, and both sides of the limits. Sourced by tests/cli/run.
# shellcheck shell=bash disable=SC2154,SC2086,SC2094,SC2103,SC2164

# drawn KIND SEED PERSONALISATION ADDITIONAL LENGTH: the reference's draw from the generator of this kind, the three strings in Python
drawn() {
  reference "put(generator.draw(generator.seed(generator.Generator(generator.$1), $2, $3)[2], $4, $5)[2])"
}

# drawing KIND [FLAG]: the command draw with this flag, which chooses the generator of this kind
drawing() {
  local kind=$1 flag=${2:-}
  for length in 0 1 64 207 208 209 416 417 1000; do
    drawn $kind "open('seed', 'rb').read()" "b'depot 7'" "b'shift 2'" $length >want
    gives want draw --seed-file seed --personalisation 'depot 7' --additional 'shift 2' --length $length $flag
    gives want draw $flag --seed-file seed --personalisation 'depot 7' --additional 'shift 2' --length $length --raw
    { od -An -v -tx1 want | tr -d ' \n'; echo; } >want.hex
    gives want.hex draw --seed-file - --personalisation='depot 7' --additional='shift 2' $flag --length=$length --hex <seed
  done
  makes made want draw --seed-file seed --personalisation-hex 6465706f742037 --additional-file <(printf 'shift 2') --length 1000 $flag -o made
  makes made want draw --seed-hex-file <(od -An -tx1 seed) --personalisation-file - --additional-hex 73686966742032 --length 1000 $flag -o made <person
  drawn $kind "b''" "b''" "b''" 32 >want
  gives want draw --seed-file /dev/null --length 32 $flag
  gives want draw --seed-hex-file /dev/null --length 32 $flag

  # 3: a personalisation and an additional input of 84 bytes and one more
  drawn $kind "b''" "bytes(84)" "bytes(84)" 32 >want
  gives want draw --seed-file /dev/null --personalisation-file <(bytes 84) --additional-file <(bytes 84) --length 32 $flag
  refuses seed 3 draw --seed-file seed --personalisation-file <(bytes 85) --length 32 $flag
  refuses seed 3 draw --seed-file seed --personalisation-file /dev/zero --length 32 $flag
  refuses draw 3 draw --seed-file seed --additional-file <(bytes 85) --length 32 $flag
  refuses draw 3 draw --seed-file seed --additional "$(printf 'x%.0s' {1..85})" --length 0 $flag

  # 5: a seed of 65,536 bytes and one more
  drawn $kind "bytes(65536)" "b''" "b''" 32 >want
  gives want draw --seed-file <(bytes 65536) --length 32 $flag
  refuses seed 5 draw --seed-file <(bytes 65537) --length 32 $flag
  refuses seed 5 draw --seed-file - --length 32 $flag </dev/zero
  refuses seed 5 draw --seed-hex-file - --length 32 $flag < <(yes 00)

  # 6: a draw of 16,777,216 bytes and one more
  run draw --seed-file seed --personalisation 'depot 7' --additional 'shift 2' --length $most $flag
  drawn $kind "open('seed', 'rb').read()" "b'depot 7'" "b'shift 2'" 1000 >want
  that 'the longest draw is wrong' test "$status" = 0 -a "$(stat -c %s out)" = $most
  that 'the longest draw does not begin as a short one' cmp -n 1000 out want
  refuses draw 6 draw --seed-file seed --length $((most + 1)) $flag
  refuses draw 6 draw --seed-file seed --length 18446744073709551617 $flag

  # the smallest number of several, over seeding and draw
  refuses draw 3 draw --seed-file /dev/zero --additional-file <(bytes 85) --length 99999999999999999999999 $flag
  refuses seed 3 draw --seed-file /dev/zero --personalisation-file <(bytes 85) --length 99999999999999999999999 $flag
  refuses seed 5 draw --seed-file /dev/zero --length 99999999999999999999999 $flag
}

printf 'a seed of the depot' >seed
printf 'depot 7' >person
drawing CSHAKE
drawing KMAC --kmac

fails 64 '--length N is missing' draw --seed-file seed
fails 64 'exclude each other' draw --seed-file seed --length 1 --raw --hex
fails 64 '--kmac takes no value' draw --seed-file seed --length 1 --kmac=yes
fails 64 'too many' draw --seed-file seed --length 1 seed
fails 64 'cannot both be read' draw --seed-file - --additional-file - --length 1
