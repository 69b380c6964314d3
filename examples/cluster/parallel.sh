#!/bin/bash
# Builds the parts by GNU parallel, one at a time on each host of the list HOSTS, and merges them after all have ended well.
#
#     HOSTS=one,two parallel.sh PARTS FEED DATE STORES        (HOSTS=: is this machine)
set -eu
last=$(($1 - 1)) feed=$2 date=$3 stores=$4
seq 0 "$last" | parallel --sshlogin "${HOSTS:-:}" --jobs 1 --retries 3 --joblog "$stores/parts.log" \
    "tp build --feed '$feed' --date $date --part {}/$1 --store '$stores/part-{}.store' --workers \$(nproc) || [ \$? = 3 ]"
tp merge --feed "$feed" --date "$date" --store "$stores/all.store" $(seq -f "$stores/part-%g.store" 0 "$last")
