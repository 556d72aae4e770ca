# Sealing and opening: answers of the reference, forms of every option, refusals, and both sides of the limits. Sourced by tests/cli/run.
# shellcheck shell=bash disable=SC2154,SC2086,SC2094,SC2103,SC2164

# seal and open, beside the reference, with texts around the blocks' ends, and every length of tag at the limits
for length in 0 1 5 104 105 136 1000; do
  for tag in 16 32 64; do
    reference "put(bytes(7 * i % 256 for i in range($length)))" >text
    reference "text = open('text', 'rb').read(); put(b''.join(sealing.seal(key, b'depot 7', text, b'plan 1', $length, $tag)[2:]))" >want
    gives want seal --key-file key --iv 'depot 7' --label 'plan 1' --tag-length $tag text
    gives text open --key-file key --iv 'depot 7' --label 'plan 1' --tag-length $tag want
  done
done

# from files and standard input, to files and standard output; without a label; with an empty IV
reference "put(b''.join(sealing.seal(key, b'', plan, b'', 5, 32)[2:]))" >sealed
gives sealed seal --key-file key --iv '' plan
gives sealed seal --key-file key --iv= <plan
gives sealed seal --key-file - --iv= --label '' plan <key
gives sealed seal --key-file key --iv-file - plan
makes made sealed seal --key-file key --iv= plan -o made
makes made plan open --key-file key --iv= sealed -o made
makes made plan open --key-file key --iv= --output=made <sealed
gives plan open --key-file key --iv= - <sealed
gives plan open --key-file - --iv= --tag-length 32 sealed <key

# every form of key, IV and label
reference "put(b''.join(sealing.seal(key, b'\x00iv\xff', plan, b'\x80label\n', 5, 32)[2:]))" >sealed
printf '\0iv\377' >iv
printf '\200label\n' >label
sed 's/..../ &\r\n\t/g; s/.*/  &/' key.hex | tr a-f A-F >spaced.hex
for secret in '--key-file key' '--key-hex-file key.hex' '--key-hex-file=spaced.hex'; do
  for iv in '--iv-hex 006976ff' '--iv-hex=006976FF' '--iv-file iv'; do
      gives sealed seal $secret $iv --label-file label plan
  done
done
gives sealed seal --key-file key --iv-file iv --label-file - plan <label
gives plan open --key-hex-file key.hex --iv-file iv --label-hex '80 6c 61 62 65 6c 0a' sealed

# a final line feed counts, but not among hexadecimal digits
refuses seal 2 seal --key-file <(cat key; echo) --iv x plan
gives sealed seal --key-hex-file <(cat key.hex; echo) --iv-file iv --label-file label plan
refuses open 8 open --key-file key --iv-file <(cat iv; echo) --label-file label sealed

# 2: a key that is not 32 bytes, be it endless
for length in 0 31 33 4096; do
  bytes $length >other
  refuses seal 2 seal --key-file other --iv x plan
  refuses open 2 open --key-file other --iv x sealed
done
refuses seal 2 seal --key-file /dev/zero --iv x plan
refuses seal 2 seal --key-hex-file /dev/null --iv x plan
refuses seal 2 seal --key-hex-file <(cat key.hex; echo 00) --iv x plan
refuses seal 2 seal --key-hex-file - --iv x plan < <(yes 00)

# hexadecimal digits that are none
printf '%s0' "$(cat key.hex)" >odd.hex
printf 'hush%s' "$(cat key.hex)" >words.hex
for file in odd.hex words.hex key; do
  fails 65 "$file: .*pairs" seal --key-hex-file $file --iv x plan
  that 'a key is shown' test -z "$(grep -E 'hush|0001' err)"
done
fails 65 'white space' seal --key-hex-file - --iv x plan < <(yes '')
fails 64 'pairs' seal --key-file key --iv-hex 0 plan
fails 64 'pairs' seal --key-file key --iv-hex 0g plan
fails 64 'pairs' seal --key-file key --iv x --label-hex xy plan

# 3: an IV of 4,096 and 4,097 bytes
bytes 4096 >iv
bytes 4097 >long
reference "put(b''.join(sealing.seal(key, bytes(4096), plan, b'', 5, 32)[2:]))" >sealed
gives sealed seal --key-file key --iv-file iv plan
gives plan open --key-file key --iv-hex "$(printf '00%.0s' {1..4096})" sealed
refuses seal 3 seal --key-file key --iv-file long plan
refuses open 3 open --key-file key --iv-file /dev/zero sealed
refuses seal 3 seal --key-file key --iv "$(printf 'x%.0s' {1..4097})" plan
refuses seal 3 seal --key-file key --iv-hex "$(printf '00%.0s' {1..4097})" plan

# 5: text and label together of 16,777,216 bytes and one more; the tag of the longest is OpenSSL's
bytes $most >text
gives /dev/null seal --key-file key --iv x text -o longest
that 'the longest sealed file has a wrong length' test "$(stat -c %s longest)" = $((most + 32))
makes made text open --key-file key --iv x longest -o made
reference "put(kmacxof256(key, b'', 32, b'x')[2])" >auth.key
head -c $most longest | openssl mac -macopt hexkey:"$(od -An -v -tx1 auth.key | tr -d ' \n')" -macopt xof:1 -macopt size:32 KMAC256 |
  tr -d '\n' | tr A-F a-f >want
that "the longest text's tag is not OpenSSL's" test "$(tail -c 32 longest | od -An -v -tx1 | tr -d ' \n')" = "$(cat want)"
refuses seal 5 seal --key-file key --iv x --label y text
refuses seal 5 seal --key-file key --iv x --label-file /dev/zero plan
refuses seal 5 seal --key-file key --iv x < <(bytes $((most + 1)))
refuses seal 5 seal --key-file key --iv x </dev/zero
refuses open 5 open --key-file key --iv x < <(bytes $((most + 33)))
refuses open 5 open --key-file key --iv x --label y longest
refuses open 5 open --key-file key --iv x </dev/zero
refuses open 8 open --key-file key --iv x < <(bytes $((most + 32)))

# 7: tags of 15 and 65 bytes and of lengths beyond any number; opening too, be the file shorter than such a tag
for length in 0 15 65 4294967328 18446744073709551648 99999999999999999999999; do
  refuses seal 7 seal --key-file key --iv x --tag-length $length plan
  refuses open 7 open --key-file key --iv x --tag-length $length plan
  refuses open 7 open --key-file key --iv x --tag-length $length < <(bytes 70)
done
for length in x -1 '' 3.5; do
  fails 64 'decimal digits' seal --key-file key --iv x --tag-length="$length" plan
done

# the smallest number of several
refuses seal 2 seal --key-file plan --iv-file long --tag-length 15 </dev/zero
refuses seal 3 seal --key-file key --iv-file long --tag-length 15 </dev/zero
refuses seal 5 seal --key-file key --iv x --tag-length 15 </dev/zero
refuses open 2 open --key-file plan --iv-file long --tag-length 65 </dev/zero
refuses open 3 open --key-file key --iv-file long --tag-length 65 plan
refuses open 5 open --key-file key --iv x --tag-length 65 </dev/zero
rm -f longest made text
