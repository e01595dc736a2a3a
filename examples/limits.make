#!/bin/sh
# Prints the input of the example: 1,999 receipts and an issue of 100 lines each, which are as many movements as a book holds, then
# a receipt of one line, which is too much. All are settled and reported, and at last comes a line of more than 65,536 bytes.
awk 'BEGIN {
    print "{\"do\":\"item\",\"code\":\"BOLT\",\"method\":\"fifo\"}"
    print "{\"do\":\"store\",\"code\":\"SHOP\",\"account\":110}"
    entered = "{\"item\":\"BOLT\",\"store\":\"SHOP\",\"qty\":1,\"amount\":100}"
    left = "{\"item\":\"BOLT\",\"store\":\"SHOP\",\"qty\":1}"
    all_entered = entered
    all_left = left
    for (count = 1; count < 100; count++) {
        all_entered = all_entered "," entered
        all_left = all_left "," left
    }
    for (receipt = 0; receipt < 1999; receipt++) print "{\"do\":\"receipt\",\"at\":\"2026-01-02T09:00:00\",\"lines\":[" all_entered "]}"
    print "{\"do\":\"issue\",\"at\":\"2026-01-03T09:00:00\",\"use\":\"sold\",\"lines\":[" all_left "]}"
    print "{\"do\":\"receipt\",\"at\":\"2026-01-02T09:00:00\",\"lines\":[" entered "]}"
    print "{\"do\":\"settle\"}"
    print "{\"do\":\"report\",\"of\":\"balance\"}"
    printf "{\"do\":\"settle\"}"
    for (count = 0; count < 65536; count++) printf " "
    print ""
}'
