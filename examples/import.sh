#!/bin/sh
# import.sh FOLDER FILE..: brings the jobs of an older queue in, and says of each file what became of it. FOLDER has the
# client's journal: one folder, and one client's name, for each import.
#
#   FAXQD=127.0.0.1:4559 CLIENT=old examples/import.sh /var/spool/import sendq/q*
#
# As client.sh does, it asks until the queue answers, may be killed at any moment, and brings a file of one name in once.
# `faxqd import` with `faxqd replay` shows what is wrong with a file that is refused.
set -- --imports "$@"
. "$(dirname "$(readlink -f "$0")")/client.sh"
