#!/bin/sh
# worker.sh MODEM FOLDER COMMAND: sends the faxes of one modem by `faxqd worker`, for ever. FOLDER has its journal.
#
#   COMMAND dial NUMBER     calls, and prints connected, busy, no-answer, no-carrier or other
#   COMMAND page JOB PAGE   sends one page, and ends with 0 if the receiver confirmed it
#   COMMAND hangup          ends the call, if there is one
#
# FAXQD is the queue's HOST:PORT, PROGRAM the program, and WAIT the seconds between two requests for work. LOG gets a line for
# each call, in the form of xferfaxlog(5). On SIGTERM it reports the page that is being sent, and ends. It needs flock.
set -eu
server=${FAXQD:-127.0.0.1:4559} server=${server#http://} server=${server%/} log=${LOG:-/dev/null}
grant='' called='' up='' sent='' stop='' stopping='' result=other online=$(date +%s)
trap stopping=1 TERM INT HUP # the shell does this once the program that it runs has ended

say() { printf 'worker.sh: %s\n' "$1" >&2; }
hangup() { "$command" hangup || true; }
worker() { "${PROGRAM:-faxqd}" worker --to "$server" --journal "$folder/journal" --modem "$modem" --wait 5 "$@" 2>&1 9>&-; }
time_since() { date -ud "@$(($(date +%s) - $1))" +%-H:%M:%S; }

# ask ACTION..: does an action until the queue answers. $answer is empty if the action was killed: `next` shows what is left.
ask() {
    said=''
    while status=0 && { answer=$(worker "$@") || status=$?; } && [ "$status" = 4 ]; do
        [ -n "$said" ] || say "$1: $answer; trying again"
        said=1
        # A page is safe once the journal has its report.
        [ -z "$stopping" ] || case "$1 $(worker show)" in [!p]* | *'unanswered '*/page) hangup && exit 0 ;; esac
    done
    if [ "$status" -gt 128 ]; then answer=''; elif [ "$status" != 0 ]; then say "$1: $answer" && hangup && exit 1; fi
    if [ "$answer" = stop ]; then stop=1; fi
}

# end_grant OUTCOME REASON: ends the call and the grant. The call's line is for the log once the outcome is accepted.
end_grant() {
    hangup
    up='' stop=''
    if [ "$called" = "$grant" ]; then
        printf '%d %s\tSEND\t%09d\t%s\t%s\t""\t\t"%s"\t""\t0\t%d\t%s\t%s\t"%s"\n' "$grant" "$(date -d "@$began" '+%D %H:%M')" \
            "$grant" "$modem" "$job" "$number" $((first - from)) "$(time_since "$began")" "$(time_since "$online")" "$2" \
            > "$folder/log-line"
    fi
    ask end "$1" "$2"
    if [ -n "$answer" ]; then grant='' && log_call; fi
}

log_call() {
    if [ -s "$folder/log-line" ] && read -r ended line < "$folder/log-line" && [ "$ended" != "$grant" ]; then
        printf '%s\n' "$line" >> "$log" || say "can't write $log"
        rm "$folder/log-line"
    fi
}

if [ $# != 3 ]; then say 'the arguments are MODEM FOLDER COMMAND' && exit 2; fi
case $server in *://*) say "FAXQD is HOST:PORT, and not $FAXQD: OPERATIONS has a proxy for TLS" && exit 2 ;; esac
modem=$1 folder=$2 command=$3
mkdir -p "$folder"
exec 9> "$folder/lock"
flock 9 # one at a time: a call that outlives its worker ends first
case $(sed -n 2p "$folder/request" 2> /dev/null) in
    */page) say "$folder/request: an older worker.sh may not have reported this page; see CHANGELOG, 2026-11-30" && exit 1 ;;
esac
if [ -s "$folder/call" ]; then read -r called from began < "$folder/call" || called=''; fi
hangup
while [ -z "$stopping" ] || [ -n "$grant" ]; do
    ask next
    if [ -z "$answer" ]; then sleep 1 9>&- && continue; fi
    read -r _ grant _ job _ number _ pages _ call << END
$answer
END
    log_call
    first=${pages%-*}
    if [ -z "$grant" ]; then
        sleep "${WAIT:-15}" 9>&- &
        wait $! || true
    elif [ "$call" = none ] && [ "$called" = "$grant" ]; then
        ask call "$result" # `other`, if the worker was started again
    elif [ "$first" -gt "${pages#*-}" ]; then
        end_grant 'done' ''
    elif [ "$sent" = "$grant/$first" ]; then
        ask page
    elif [ -n "$stop$stopping" ]; then
        end_grant retry stopped
    elif [ "$call" = none ]; then # the only call of the grant, which the folder has before
        called=$grant from=$first began=$(date +%s) up=$grant
        echo "$called $from $began" > "$folder/call"
        result=$("$command" dial "$number") || result=other
        case $result in connected | busy | no-answer | no-carrier) ;; *) result=other ;; esac
        online=$(date +%s)
    elif [ "$call" != connected ]; then
        end_grant retry "$call"
    elif [ "$up" != "$grant" ]; then
        end_grant retry 'worker was started again'
    elif "$command" page "$job" "$first"; then
        sent=$grant/$first
        ask page
    else
        end_grant retry 'page not confirmed'
    fi
done
