#!/bin/sh
# grow.sh RATE: a population after STEPS steps at so many percent
population=1000
step=0
while [ "$step" -lt "$STEPS" ]; do
    population=$((population + population * $1 / 100))
    step=$((step + 1))
done
echo "$1 $population"
