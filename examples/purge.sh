#!/bin/sh
# purge.sh URL DAYS: has the queue delete the jobs that were over more than DAYS days ago, 1 or more, with their grants, and
# prints how many these were. The server goes on serving.
#
#   examples/purge.sh http://127.0.0.1:4559 30
#
# One request deletes at most 1,000 jobs, so it asks again until there are none. The request that isn't answered yet is in
# JOURNAL (~/.faxqd-purge) and is sent again, the same, until the queue answers, also by the next run: that run then
# counts what it deleted, too. CLIENT (purge) is the client's name. It ends with 1 if the queue refuses, with 2 if the
# arguments are wrong. It needs curl and flock.
set -eu
case $#:${2-} in
    2: | 2:0* | 2:*[!0-9]* | 2:??????* | [!2]*) echo 'purge.sh: the arguments are URL DAYS, with 1 to 99999 days' >&2 && exit 2 ;;
esac
journal=${JOURNAL:-$HOME/.faxqd-purge} wanted=$(($(date +%s) - $2 * 86400)) body='' got='' seen='' purged=0
wanted="{\"before\":$((wanted > 0 ? wanted : 0))}"
exec 9>> "$journal.lock"
flock 9 # one at a time
until [ "$got $body" = "0 $wanted" ]; do
    if [ ! -e "$journal" ]; then # under a new number: the moment, and 24 bits by chance
        echo "$(date +%s)$(printf %08d "$(od -An -N3 -tu4 /dev/urandom | tr -d ' ')") $wanted" > "$journal.new"
        sync "$journal.new"
        mv "$journal.new" "$journal"
        sync "$(dirname "$journal")"
    fi
    read -r number body < "$journal"
    got=$(curl --silent --netrc-optional --max-time "${LIMIT:-60}" --write-out ' %{http_code} %{content_type}' --data "$body" \
        --header "Fax-Client: ${CLIENT:-purge}" --header "Fax-Number: $number" "$1/jobs/purge") || got=''
    # Only the queue's own reply is an answer: how many jobs it deleted, or why it refuses.
    got=$(printf '%s\n' "$got" | sed -nE '$!q
        s/^\{"purged":(0|[1-9][0-9]{0,3})\} 200 application\/json$/\1/p
        s/^(\{("kind":"[a-z-]+",)?"no":[0-9]+,"word":"[a-z-]+"\}) [45][0-9]{2} application\/json$/\1/p')
    case $got in
        [0-9]*)
            purged=$((purged + got))
            rm "$journal"
            ;;
        '{'*'"unavailable"}' | '')
            [ "$seen" ] || echo "purge.sh: $1 doesn't answer as a fax queue; trying again" >&2
            seen=1
            sleep "${PAUSE:-2}"
            ;;
        *)
            echo "purge.sh: refused: $got" >&2
            rm "$journal"
            exit 1
            ;;
    esac
done
echo "$purged jobs purged"
