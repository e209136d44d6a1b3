#!/bin/sh
# Asks a store behind `nrbpf serve`, over two named pipes. From the top of the repository: examples/serve/client.sh [NRBPF]
nrbpf=${1:-./nrbpf}
room=$(mktemp -d) || exit 1
trap 'rm -rf "$room"' EXIT
mkfifo "$room/lines" "$room/answers" || exit 1
"$nrbpf" serve examples/counter/manifest <"$room/lines" >"$room/answers" &
exec 3>"$room/lines" 4<"$room/answers"

# The answer to one line.
ask() {
    printf '%s\n' "$1" >&3
    IFS= read -r answer <&4 || exit 1
}

# What a program replies: the fourth word.
call() {
    ask "$1 $2"
    set -- $answer
    case $1 in
        update | read) reply=$4 ;;
        *) reply=$answer ;;
    esac
}

call bump 00000000
echo "bump 0: $reply"
call bump 00000000
echo "bump 0: $reply"
call bump 01000000
echo "bump 1: $reply"
call peek 00000000
echo "peek 0: $reply"
call nope -
echo "nope: $reply"
ask bump
echo "a bad line: $answer"
ask 'install read 0 b7000000050000009500000000000000'
echo "install: $answer"
call 'read 2' -
echo "program 2: $reply"

# Many lines at once: they and their answers must fit into the pipes.
yes 'bump 01000000' | head -n 1000 >&3
for _ in $(seq 1000); do
    IFS= read -r answer <&4 || exit 1
done
echo "the last of 1000: $answer"

exec 3>&- 4<&-
wait $!
echo "status: $?"
