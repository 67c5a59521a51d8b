#!/usr/bin/env bash
# Runs a program over libraries with one fault each: each run must fail, and the one without a fault not.
#
#     broken.sh FAULTS LINES PROGRAM ..     how many faults the program knows, a file of lines for it, the program with its words
set -u
ulimit -c 0
faults=$1 lines=$2 noticed=0
shift 2
BROKEN=0 "$@" < "$lines" > /dev/null || { echo 'without a fault: not as it must be'; exit 1; }
for number in $(seq "$faults"); do
    if BROKEN=$number "$@" < "$lines" > /dev/null; then echo "fault $number of ${1##*/} NOT NOTICED" >&3; else noticed=$((noticed + 1)); fi
done 3>&1 2> /dev/null
echo "$noticed of $faults faults of ${1##*/} noticed"
[ $noticed = "$faults" ]
