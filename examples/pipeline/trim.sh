#!/bin/sh
# the first four letters of each line of in.txt, in out.txt
cut -c 1-4 in.txt > out.txt
