#!/bin/sh
# split.sh FILE PARTS: the lines of FILE in so many parts
split -d -a 1 -n "l/$2" "$1" part.
