#!/bin/sh
# Prints more than 1 MB: an item, 20,000 blank lines of 64 spaces, a line of more than 65,536 bytes, and a last line without its
# line feed.
awk 'BEGIN {
    print "{\"do\":\"item\",\"code\":\"BOLT\",\"method\":\"fifo\"}"
    spaces = sprintf("%64s", "")
    for (count = 0; count < 20000; count++) print spaces
    for (count = 0; count < 1100; count++) printf "%s", spaces
    print "{\"do\":\"settle\"}"
    printf "{\"do\":\"settle\"}"
}'
