#!/bin/sh
# Prints how many instructions a call from C takes, as callgrind counts them: the difference of 11000 calls and 1000,
# divided by 10000. The argument is the program `speed`.
count() {
    valgrind --tool=callgrind --callgrind-out-file=/dev/null "$@" 2>&1 >/dev/null | sed -n 's/.*Collected : //p'
}
row() {
    few=$(count "$program" "$1" "$2" 1000 "$3")
    many=$(count "$program" "$1" "$2" 11000 "$3")
    echo "| \`$1\` | \`$2\` | \`$3\` | $(((many - few + 5000) / 10000)) |"
}
program=$1
echo '| Call | Format | Text | Instructions |'
echo '|---|---|---|---|'
for call in moment instant nanoseconds; do
    row $call 1 2021-01-02T03:04:05Z
    row $call 1 2021-01-02T03:04:05.123456789+05:30
    row $call 2 'Sat, 02 Jan 2021 03:04:05 +0607'
    row $call 3 20210102T030405Z
done
row local 3 20210102T030405
row local 3 2021-01-02T03:04:05
row moment 3 2021-01-02T03:04:05Z
row moment 1 2021-13-02T03:04:05Z
row column 1 2021-01-02T03:04:05Z
row column 1 2021-01-02T03:04:05.123456789+05:30
row column 2 'Sat, 02 Jan 2021 03:04:05 +0607'
row column 3 20210102T030405Z
row date %Y-%m-%d 2021-03-04
row fields %Y-%m-%d 2021-03-04
row time %H:%M 23:59
row fields %H:%M 23:59
row time %H:%M:%S 23:59:59
row fields %H:%M:%S 23:59:59
row clock '%Y-%m-%d %H:%M:%S' '2021-03-04 05:06:07'
row fields '%Y-%m-%d %H:%M:%S' '2021-03-04 05:06:07'
row described_column '%d/%b/%Y:%H:%M:%S %z' '02/Jan/2021:03:04:05 -0030'
for call in described read strptime; do
    row $call '%d/%b/%Y:%H:%M:%S %z' '02/Jan/2021:03:04:05 -0030'
    row $call %Y-%m-%dT%H:%M:%S%z 2021-01-02T03:04:05+0000
done
row strptime %Y-%m-%dT%H:%M:%S%z 2021-01-02T03:04:05Z
row strptime '%a, %d %b %Y %H:%M:%S %z' 'Sat, 02 Jan 2021 03:04:05 +0607'
row strptime %Y%m%dT%H%M%S%z 20210102T030405Z
