#!/bin/sh
# Runs the session of session.txt, curl over `rank_server serve`, and compares each reply with the stored one.
#
#     examples/session.sh PROGRAM
#
# A line of session.txt that begins with `$ ` begins a command, one with `> ` goes on with it, and what follows is its
# reply; a reply that stands there in several lines came in one. It ends with 1 where a reply differs or the server ends
# with another status than 0, and says "skipped" where there is no curl.

session=$(dirname "$0")/session.txt
program=$(realpath "${1:?the program is missing}")
folder=$(mktemp -d)
server= request= expected=

rank_server() {
    (cd "$folder" && exec "$program" "$@" > /dev/null) &
    server=$!
}

curl() {
    command curl --silent --retry 20 --retry-delay 1 --retry-connrefused --max-time 60 "$@" < /dev/null
}

answer() {
    case $request in
        'rank_server '*) eval "${request% &}" ;;
        'curl '*)
            got=$(eval "$request")
            if [ "$got" != "$expected" ]; then
                printf '%s\n  expected %s\n  got      %s\n' "$request" "$expected" "$got"
                exit 1
            fi ;;
    esac
}

if ! command -v curl > /dev/null; then
    echo "skipped: curl is not installed"
    exit 0
fi
trap '[ -z "$server" ] || kill "$server" 2> /dev/null; rm -r "$folder"' EXIT
while IFS= read -r line; do
    case $line in
        '$ '*) answer; request=${line#??} expected= ;;
        '> '*) request="$request
${line#??}" ;;
        *) expected=$expected${line# } ;;
    esac
done < "$session"
answer
wait "$server"
status=$?
server=
[ "$status" = 0 ] || { echo "the server ended with $status"; exit 1; }
echo "each reply is the one that stands in session.txt"
