# Hall plans written from text, with the files that hall.sh makes. Sourced by tests/cli/run.
# shellcheck shell=bash disable=SC2154,SC2086,SC2094,SC2103,SC2164

# write: every way to say the same halls
while read -r text; do
  # shellcheck disable=SC2059
  gives halls hall write < <(printf "$text")
done <<'TEXTS'
hall\n  7\n  300\n0\n
hall\n  7\n  300\n0
hall\n  1 7\n  2 300\n3 0\n
chutes 3\nhall\n  7\n  300\n0\n
\n# house\nchutes 3\r\n\nhall \r\n\t# line 1\n  1\t7\r\n\t\n # line 2\n   # the last of hall 1\n  2  300 \n3 0\n
chutes 003\nhall\n  007\n  300\n3 000\n
TEXTS
makes made halls hall write halls.txt -o made
makes made halls hall write - -o made <halls.txt
gives halls hall write < <(hailfeather hall report halls)
printf '\0' >none
gives none hall write
gives none hall write < <(printf 'chutes 0\n')
gives <(printf '\001\001\000') hall write < <(echo hall)
gives <(printf '\001\001\002\001\000\001\000') hall write < <(printf 'chutes 0\nhall\n  hall\n  hall\n')
gives <(printf '\002\001\001\001\001\000\005\000\006') hall write < <(printf 'hall\n  hall\n    5\n6\n')

# write: text that breaks the rules, with the line's number and what is wrong
while IFS=: read -r line what text; do
  # shellcheck disable=SC2059
  fails 65 "standard input: line $line: .*$what" hall write < <(printf "$text")
done <<'TEXTS'
1:it has to be 'hall', a destination, or:x\n
1:it has to be 'hall':halls\n
1:it has to be 'hall':Hall\n
1:it has to be 'hall':hall 2\n
1:it has to be 'hall':1 2 3\n
1:it has to be 'hall':7 # the first\n
1:it has to be 'chutes N':chutes x\n
1:it has to be 'chutes N':chutes\n
1:it has to be 'chutes N':chutes 1 2\n
1:it has to be 'hall':rows 3\n7\n8\n9\n
2:it has to be 'hall':hall\n  -1\n
3:the next chute is 2, not 1:hall\n  1 7\n1 300\n
3:the next chute is 2, not 3:hall\n  7\n  3 300\n
1:the next chute is 1, not 0:0 7\n
1:the next chute is 1, not 4294967297:4294967297 7\n
1:it says 2 chutes, and 1 follow:chutes 2\nhall\n  7\n
2:it says 2 chutes, and 3 follow:\nchutes 2\n7\nhall\n  8\n  9\n
1:it says 1 chutes, and 0 follow:chutes 1\nhall\n
2:only the first line:hall\nchutes 0\n
2:only the first line:chutes 1\nchutes 1\n7\n
2:only the first line:7\nchutes x\n
1:indented by 2 spaces, and can be by 0 at most:  hall\n
1:indented by 2 spaces:  chutes 1\n7\n
1:each level takes 2: hall\n
2:each level takes 2:hall\n 7\n
2:each level takes 2:hall\n   7\n
2:indented by 4 spaces, and can be by 2 at most:hall\n    7\n
3:indented by 4 spaces, and can be by 2 at most:hall\n  7\n    8\n
2:indented by 2 spaces, and can be by 0 at most:7\n  8\n
4:indented by 2 spaces, and can be by 0 at most:hall\n  7\n8\n  9\n
4:indented by 4 spaces, and can be by 2 at most:hall\n  hall\n  7\n    8\n
2:spaces alone:hall\n\t7\n
2:spaces alone:hall\n \t7\n
3:spaces alone:hall\n  7\n\thall\n
1:spaces alone:\r7\n
TEXTS
printf 'hall\n  x\n' >bad
fails 65 'bad: line 2: ' hall write bad -o never
that 'a plan was written from malformed text' test ! -e never

# write: the library's refusals on both sides: destinations, levels, chutes and bytes
gives <(printf '\001\000\377\377\177') hall write < <(echo 2097151)
for destination in 2097152 4294967295 4294967296 4294967303 18446744073709551623 99999999999999999999999; do
  refuses hall_length 9 hall write < <(printf 'hall\n  %s\n' $destination)
done
# deep LEVELS: a chute so deep, the outermost level counted
deep() { python3 -c "for level in range($1): print('  ' * level + ('hall' if level < $1 - 1 else '5'))"; }
gives <(deep 8 | sed 's/5/1 5/; 1i chutes 1') hall report < <(hailfeather hall write < <(deep 8))
for levels in 9 10 1000; do
  refuses hall_length 9 hall write < <(deep $levels)
done
gives <(deep 8 | sed '$d; 1i chutes 0') hall report < <(hailfeather hall write < <(deep 8 | sed '$d'))
refuses hall_length 9 hall write < <(deep 9 | sed '$d')
fails 65 'line 10: ' hall write < <(deep 9; echo x)
# many CHUTES: so many, in halls of 100
many() { seq "$1" | awk 'NR % 100 == 1 { print "hall" } { print "  " NR, $1 }'; }
gives <(echo chutes 4096; many 4096) hall report < <(hailfeather hall write < <(many 4096))
refuses hall_length 9 hall write < <(many 4097)
refuses hall_length 9 hall write < <(echo chutes 4097; many 4097)
refuses hall_length 9 hall write < <(echo chutes 9999; many 9999)
gives /dev/null hall write -o made < <(many 4096; echo hall)
fails 65 'line 1: it says 3 chutes, and 4097 or more follow' hall write < <(echo chutes 3; many 9999)
fails 65 'line 1: ' hall write < <(echo chutes 4096; many 4097)
# empty COUNT: so many empty halls
empty() { awk "BEGIN { for (i = 0; i < $1; i++) print \"hall\" }"; }
makes made longest hall write -o made < <(empty 32765; echo 128)
refuses hall_length 5 hall write < <(empty 32765; echo 16384)
refuses hall_length 9 hall write < <(empty 32765; echo 2097152)
refuses hall_length 5 hall write < <(empty 2097151)
refuses hall_length 9 hall write < <(empty 2097152)

# write: an endless text ends
refuses hall_length 9 hall write < <(yes 7)
fails 65 'longer than' hall write < <(yes hall)
fails 65 'longer than' hall write < <(yes '# no hall')
fails 65 'longer than' hall write < <(yes 7 | tr -d '\n')
fails 65 'line 1' hall write < <(yes 7 | tr '\n' ' ')
fails 65 'line 1' hall write </dev/zero
