#!/bin/sh
# Copies an office's file while the office is served, and checks the copy. If no whole copy can be made that way, it stops the service for as long as the
# copying takes.
#
#     deploy/backup.sh CONFIG FILE FOLDER
#     deploy/backup.sh /etc/procure/office.toml /var/lib/procure/office.db /var/backups/procure
#
# 1. It reads the first 32 bytes of the log FILE-wal, copies FILE, copies the log, and reads those bytes again. If they are unchanged and begin with 0x37, the
#    two copies are files that a stop at that time could have left. Otherwise it waits and tries again, $TRIES times (5), a second longer each time. Then it
#    stops the service, copies both files and starts it. If it can't write the copy, it stops nothing for that.
# 2. It checks the copy: `procure ledger` must open a copy of it as an office, and sqlite3, which moves the log into it, must find no fault
#    (`PRAGMA integrity_check`).
# 3. It leaves FOLDER/office-MOMENT.db, one file with the log in it, which `procure` hasn't opened, and its ledger, office-MOMENT.ledger. A bad copy stays as
#    office-MOMENT.wrong, the newest three of them.
# 4. After a good copy it deletes older ones. The newest $KEEP stay (48), and of earlier ones the last of each day, for $DAYS days (30).
#
# The commands are $STOP, $START and $PROCURE if these are set, otherwise `systemctl stop procure`, `systemctl start procure` and `procure`. With STOP=false
# nothing is stopped.
# Exit status: 0 with a good copy and the service running, 1 without one of them, 2 for wrong arguments or a missing tool.
#
# Why equal heads are enough. The program writes to FILE only while it moves the log into it: pages that the log has, whole and synced. It keeps them in the log
# until all of them are in FILE and synced there too. Only then does it restart the log: the first byte becomes 0. Then a head with other salts is written,
# which count up, and last the first byte, 0x37.
#
# As long as the head is the same, the log only grows. Each command is written after the last one. One byte of its first page, the gate, is written last, so
# that nobody reads the command before it is complete. So everything that changed in FILE while it was copied is in the log's copy, which was begun later. That
# copy was made from front to back: it has each command that was answered before, and the first few of the later ones, whole. (If a command's first page is
# being written at the moment when it is read, its checksum fails, and the command isn't in the copy.)
#
# If the log were copied first, FILE could have newer pages than that log. Without the second look, pages that were moved into FILE after its copy could be
# missing in the log's copy.
set -eu
umask 077
# cron's PATH is shorter than a shell's.
PATH=$PATH:/usr/local/bin

if [ $# != 3 ]; then
    sed -n '2,/^# Exit status/s/^# \{0,1\}//p' "$0" >&2
    exit 2
fi
config=$1 file=$2 folder=$3
stop=${STOP:-systemctl stop procure} start=${START:-systemctl start procure} procure=${PROCURE:-procure}
tries=${TRIES:-5} keep=${KEEP:-48} days=${DAYS:-30}

fail() {
    echo "backup: $1" >&2
    exit "$2"
}

# (Without FILE, `procure ledger` would make a new office.)
[ -f "$file" ] || fail "there is no file $file to copy" 2
[ -r "$config" ] || fail "the settings $config can't be read" 2
[ -d "$folder" ] || fail "there is no folder $folder for the copies: make it" 2
for tool in sqlite3 od "$procure"; do
    command -v "$tool" >/dev/null || fail "$tool isn't installed here: install it, then run this again" 2
done

copy=$folder/office-$(date -u +%Y%m%dT%H%M%SZ)
is_stopped='' is_whole='' is_started=yes

milliseconds() { echo $(($(date +%s%N) / 1000000)); }

# Runs however this ends: it starts the service if it was stopped, and deletes any copy that isn't whole.
settle() {
    if [ -n "$is_stopped" ]; then
        is_stopped=''
        $start || echo "backup: the service could not be started: $start. Start it by hand" >&2
    fi
    [ -n "$is_whole" ] || rm -f "$copy.part" "$copy.part-wal"
    rm -f "$copy.trial" "$copy.trial-wal"
}
trap settle EXIT
trap 'exit 130' INT
trap 'exit 143' TERM HUP

# Prints the first 32 bytes of the log in hexadecimal digits; nothing if it has fewer or doesn't exist.
head_of_log() {
    head=$(head -c 32 "$file-wal" 2>/dev/null | od -An -v -tx1 | tr -d ' \n')
    [ ${#head} != 64 ] || echo "$head"
}

# Copies both files, FILE first. The log is read from front to back.
copy_both() {
    cp --reflink=auto "$file" "$copy.part" || fail "the copy can't be written: $copy. Free space in its folder, or correct its rights" 1
    rm -f "$copy.part-wal"
    [ ! -e "$file-wal" ] || cat "$file-wal" > "$copy.part-wal" || fail "the copy can't be written: $copy. Free space in its folder, or correct its rights" 1
}

# Succeeds if both files were copied while the log had one head.
copy_served() {
    before=$(head_of_log)
    case $before in 37*) ;; *) return 1 ;; esac
    copy_both
    [ "$(head_of_log)" = "$before" ]
}

copy_stopped() {
    since=$(milliseconds)
    is_stopped=yes
    $stop || fail "the service could not be stopped: $stop. Nothing was copied" 1
    copy_both
    is_stopped=''
    $start || is_started=''
    echo "backup: the service was stopped for $(($(milliseconds) - since)) ms, because the log was moved or had no head at each of $tries tries"
}

try=1
while [ "$try" -le "$tries" ] && [ -z "$is_whole" ]; do
    if copy_served; then
        is_whole=yes
        echo "backup: the copy was whole at try $try; nothing was stopped"
    elif [ "$try" -lt "$tries" ]; then
        sleep "$try"
    fi
    try=$((try + 1))
done
if [ -z "$is_whole" ]; then
    copy_stopped
    is_whole=yes
fi

# Deletes the copies whose names it reads, one on each line, with their logs and ledgers.
delete() {
    while read -r name; do
        rm -f "$folder/$name" "$folder/$name-wal" "$folder/${name%.*}.ledger"
    done
}

named() { (cd "$folder" && find . -maxdepth 1 -name "office-*T*Z.$1" | sed 's/^..//' | sort -r); }

wrong() {
    mv "$copy.part" "$copy.wrong"
    [ ! -e "$copy.part-wal" ] || mv "$copy.part-wal" "$copy.wrong-wal"
    named wrong | tail -n +4 | delete
    fail "$1: $copy.wrong. Earlier good copies stay" 1
}

# Opening a file moves its log into it, and migrates an office of an earlier version. So `procure` opens a copy of the copy.
no_room() {
    is_whole=''
    fail "the copy can't be checked and is deleted: free space for two copies" 1
}
cp --reflink=auto "$copy.part" "$copy.trial" || no_room
[ ! -e "$copy.part-wal" ] || cp --reflink=auto "$copy.part-wal" "$copy.trial-wal" || no_room
"$procure" ledger "$config" "$copy.trial" > "$copy.ledger" || wrong 'the copy is no office'
rm -f "$copy.trial" "$copy.trial-wal"
# When sqlite3 closes the file it moves the log into it.
told=$(sqlite3 "$copy.part" 'PRAGMA integrity_check; PRAGMA foreign_key_check;') || wrong 'sqlite3 cannot read the copy'
[ "$told" = ok ] || wrong "the copy is broken: $told"
[ ! -s "$copy.part-wal" ] || wrong 'the log could not be moved into the copy'
rm -f "$copy.part-wal" "$copy.part-shm"
sync "$copy.part" "$copy.ledger"
mv "$copy.part" "$copy.db"
sync "$folder"
echo "backup: $copy.db, $(stat -c %s "$copy.db") bytes, is good"

# (Newest first. The day is the eight digits after `office-`.)
named db | awk -v keep="$keep" -v days="$days" '
    { day = substr($0, 8, 8) }
    NR <= keep { last = day; next }
    day != last && days > 0 { last = day; days--; next }
    { print }' | delete
[ -n "$is_started" ] || fail "the service could not be started: $start. Start it by hand" 1
