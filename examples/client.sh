#!/bin/sh
# client.sh FOLDER FILE..: hands in faxes, and prints the queue's answer to each, as {"job":1}. A FILE has the key lines, as
# `number:5550111` and `totpages:3`. FOLDER has the client's journal: one folder for each client.
#
#   FAXQD=127.0.0.1:4559 CLIENT=desk examples/client.sh /var/spool/desk order-4711.txt
#
# It asks until the queue answers, and may be killed at any moment: the same command goes on. A file of this name is one fax,
# however often it is handed in, so another fax needs another name. A file that is refused, with status 1 in the end, may be
# corrected and handed in again. PROGRAM names the program, by default `faxqd`. With --imports it does what import.sh says.
set -eu
server=${FAXQD:-127.0.0.1:4559} server=${server#http://} server=${server%/} script=${0##*/}
case ${1:-} in
    --imports) path=/imports client=${CLIENT:-old} && shift ;;
    *) path=/jobs client=${CLIENT:-desk} ;;
esac

say() { printf '%s: %s\n' "$script" "$1" >&2; }
post() { "${PROGRAM:-faxqd}" post --to "$server" --journal "$folder/journal" --client "$client" --wait 10 "$@" 2>&1; }

if [ $# -lt 2 ]; then say 'the arguments are FOLDER FILE..' && exit 2; fi
case $server in *://*) say "FAXQD is HOST:PORT, and not $FAXQD: OPERATIONS has a proxy for TLS" && exit 2 ;; esac
folder=$1 failed=0 said=''
shift
for left in "$folder"/waiting/*; do
    [ ! -e "$left" ] || { say "$left is left from an older $script: see CHANGELOG, 2026-11-30" && exit 1; }
done
mkdir -p "$folder"
for name; do
    case $name in /*) file=$name ;; *) file=$PWD/$name ;; esac
    while
        status=0
        answer=$(post --key "$file" "$path" "$file") || status=$?
        [ "$status" = 4 ] || [ "$status" -gt 128 ]
    do
        [ -n "$said" ] || say "$name: ${answer:-the program was killed}; trying again"
        said=1
    done
    case $status$path in
        0/jobs) echo "$answer" ;;
        0*) printf '%s: %s\n' "$name" "$answer" ;;
        *) say "$name: $answer" && failed=1 ;;
    esac
done
exit "$failed"
