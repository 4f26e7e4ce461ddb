#!/bin/sh
# A script of 200,000 lines: one party makes a board of one entry, and then publishes a value and reads it again and again.
exec awk 'BEGIN {
    count = split("create f b u64 add u64:1 u64:5|writer w f|entrymut m w u64:1 u64|reader r f|entry h r u64:1 u64", made, "|")
    for (i = 1; i <= count; i++) print "begin a " made[i] "\nstep a"
    for (n = 1; n <= 28570; n++) print "begin a update m u64:" n "\nstep a\nstep a\nbegin a get h\nstep a\nstep a\nstep a"
}'
