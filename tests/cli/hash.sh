# cSHAKE256, KMAC256 and KMACXOF256: answers of the reference and OpenSSL, refusals, and both sides of the limits. Sourced by tests/cli/run.
# shellcheck shell=bash disable=SC2154,SC2086,SC2094,SC2103,SC2164

# cshake beside the reference, as digits and as bytes, from a file and from standard input
printf 'an order of %s parcels\n' {1..40} >message
while IFS=: read -r name customisation length; do
  reference "put(cshake256(open('message', 'rb').read(), $length, b'$name', b'$customisation')[2])" >want
  od -An -v -tx1 want | tr -d ' \n' >want.hex
  echo >>want.hex
  gives want.hex cshake --name "$name" --customisation "$customisation" --length "$length" message
  gives want.hex cshake --name "$name" --customisation "$customisation" --length "$length" --hex message
  gives want cshake --name="$name" --customisation="$customisation" --length="$length" --raw <message
done <<'CALLS'
::64
:depot 7:0
Order::1
Order:depot 7:135
Order:depot 7:136
kmac:depot 7:137
KMAC :depot 7:500
CALLS
reference "put(cshake256(open('message', 'rb').read(), 64, b'\x00\xff', b'\x01')[2].hex().encode() + b'\n')" >want
gives want cshake --name-hex 00ff --customisation-file <(printf '\001') message
gives want cshake --name-file <(printf '\0\377') --customisation-hex 01 - <message
makes made want cshake --name-hex 00ff --customisation-hex=01 message -o made

# kmac beside the reference and OpenSSL
printf 'a key of the depot' >mac.key
while read -r length xof function; do
  reference "put($function(open('mac.key', 'rb').read(), open('message', 'rb').read(), $length, b'depot 7')[2])" >want
  od -An -v -tx1 want | tr -d ' \n' >want.hex
  echo >>want.hex
  option=$([ "$xof" = 0 ] || echo --xof)
  gives want.hex kmac --key-file mac.key --customisation 'depot 7' --length $length $option message
  gives want.hex kmac --key-file mac.key --customisation 'depot 7' --length $length $option --hex message
  gives want kmac --key-hex-file - --customisation 'depot 7' --length $length $option --raw message < <(od -An -v -tx1 mac.key)
  openssl mac -macopt "key:$(cat mac.key)" -macopt 'custom:depot 7' -macopt size:$length -macopt xof:$xof -in message KMAC256 | tr A-F a-f >openssl.hex
  that "kmac of $length bytes is not OpenSSL's" cmp openssl.hex want.hex
done <<'CALLS'
16 0 kmac256
32 0 kmac256
64 0 kmac256
200 0 kmac256
16 1 kmacxof256
64 1 kmacxof256
200 1 kmacxof256
CALLS
reference "put(kmac256(b'', b'', 64, b'')[2].hex().encode() + b'\n')" >want
gives want kmac --key-file /dev/null
makes made want kmac --key-file /dev/null -o made
says '' cshake --length 0 message
says '' kmac --xof --length 0 --key-file key message
gives /dev/null cshake --length 0 --raw message

# 2: a key of 4,096 bytes and one more
for xof in '' --xof; do
  function=kmac256 entry=kmac256 took=kmac256 gave=kmac256
  [ -z "$xof" ] || { function=kmacxof256 entry=session_kmacxof256 took=take gave=give; }
  reference "put($function(bytes(4096), b'', 64, bytes(4096))[2].hex().encode() + b'\n')" >want
  {
    gives want kmac $xof --key-file <(bytes 4096) --customisation-file <(bytes 4096)
    refuses $entry 2 kmac $xof --key-file <(bytes 4097)
    refuses $entry 2 kmac $xof --key-file /dev/zero
    refuses $entry 2 kmac $xof --key-hex-file <(yes 00)
    refuses $entry 3 kmac $xof --key-file key --customisation-file <(bytes 4097)
    refuses $entry 3 kmac $xof --key-file key --customisation-file /dev/zero
    refuses $took 5 kmac $xof --key-file key < <(bytes $((most + 1)))
    refuses $took 5 kmac $xof --key-file key </dev/zero
    refuses $gave 6 kmac $xof --key-file key --length $((most + 1))
    refuses $gave 6 kmac $xof --key-file key --length 99999999999999999999999
    refuses $entry 2 kmac $xof --key-file /dev/zero --customisation-file <(bytes 4097) --length 99999999999999999999999 </dev/zero
    refuses $entry 3 kmac $xof --key-file key --customisation-file <(bytes 4097) --length 18446744073709551680 </dev/zero
    refuses $took 5 kmac $xof --key-file key --length 18446744073709551680 </dev/zero
  }
done
refuses kmac256 6 kmac --key-file key --length 0 message

# 3 and 4: a name and a customisation of 4,096 bytes and one more; the name KMAC
reference "put(cshake256(b'', 64, bytes(4096), bytes(4096))[2].hex().encode() + b'\n')" >want
gives want cshake --name-file <(bytes 4096) --customisation-file <(bytes 4096)
refuses session_cshake256 3 cshake --name-file <(bytes 4097)
refuses session_cshake256 3 cshake --customisation-file /dev/zero
refuses session_cshake256 4 cshake --name KMAC message
refuses session_cshake256 4 cshake --name-hex 4b4d4143 --length 99999999999999999999999 </dev/zero
refuses session_cshake256 3 cshake --name KMAC --customisation-file <(bytes 4097) </dev/zero

# 5 and 6: a message and an output of 16,777,216 bytes and one more, beside OpenSSL
bytes $most >text
openssl dgst -shake256 -xoflen 64 <text | sed 's/.*= *//' >want
gives want cshake text
gives want cshake <text
openssl mac -macopt hexkey:"$(cat key.hex)" -macopt size:64 -macopt xof:0 -in text KMAC256 | tr A-F a-f >want
gives want kmac --key-file key text
openssl mac -macopt hexkey:"$(cat key.hex)" -macopt size:64 -macopt xof:1 -in text KMAC256 | tr A-F a-f >want
gives want kmac --key-file key --xof <text
openssl dgst -shake256 -xoflen $most -binary </dev/null >want
gives want cshake --length $most --raw
makes made want cshake --length $most --raw -o made
gives <(od -An -v -tx1 want | tr -d ' \n'; echo) cshake --length $most
refuses take 5 cshake < <(bytes $((most + 1)))
refuses take 5 cshake --length 99999999999999999999999 </dev/zero
refuses give 6 cshake --length $((most + 1))
refuses give 6 cshake --length 18446744073709551616 --raw
fails 64 'exclude each other' cshake --raw --hex message
fails 64 'exclude each other' kmac --key-file key --hex --raw message
for length in x -1 '' 6k; do
  fails 64 'decimal digits' cshake --length="$length"
done
rm -f text made want
