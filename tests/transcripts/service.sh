# For transcripts: a service over team.journal, and short words for its begin and its end.

# Who writes more than the service reads goes on.
trap '' PIPE

# Begins one with these words; `$at` is where it listens.
begin() {
    rm -f begun
    registry serve --journal team.journal "$@" > begun 2> said &
    service=$!
    trap 'kill "$service" 2> /dev/null' EXIT
    until at=$(sed -n 's/.* is served at \(.*\) (revision [0-9]*)$/\1/p' begun 2> /dev/null) && [ -n "$at" ]; do
        kill -0 "$service" || { cat said; return 1; }
        sleep 0.05
    done
}

# Ends it; shows what it said, but that requests took long, as they may on a busy machine.
end() {
    kill "$service"
    wait "$service" || echo "the service ended with status $?"
    grep -vE '^\S+ (client=|event=restart program=reader )' said
    [ $? = 1 ]
}

# A connection to the port, and its end.
connect() { exec 7<> "/dev/tcp/127.0.0.1/${at##*:}"; }
leave() { exec 7>&-; }

# The replies to these lines, sent at once over a connection of their own.
ask() {
    connect
    printf '%s\n' "$@" >&7
    head -n $# <&7
    leave
}

# What is answered to a text until the service closes the connection.
rest() {
    connect
    printf "$@" >&7
    timeout 60 tr -d '\r' <&7
    leave
}

# What is answered over HTTP: the status, and the text.
get() { rest 'GET %s HTTP/1.1\r\nHost: localhost\r\n\r\n' "$1" | sed -n '1s/^[^ ]* //p; /^$/,$p' | sed 2d; }
