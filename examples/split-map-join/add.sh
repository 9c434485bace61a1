#!/bin/sh
# add.sh FILE...: the sum of the numbers in these files
total=0
for number in $(cat "$@"); do
    total=$((total + number))
done
echo "$total"
