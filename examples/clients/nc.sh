#!/bin/sh
# nc (Debian: netcat-openbsd or netcat-traditional), against `stompd serve 127.0.0.1:61613 A B`.
# What it needs: nothing. A frame ends with the octet 0, which printf writes as \0 and this shows as ^@; the server writes LF
# behind it. As long as its input is open nc stays, so the sleeps leave the server time to answer; after a DISCONNECT, or an
# ERROR, the server closes.
port=${1:-61613}
to=$(mktemp -d)
trap 'rm -rf "$to"' EXIT

# Subscribes to a topic, and stays for four seconds.
subscriber() {
    (
        printf 'CONNECT\naccept-version:1.2\nhost:h\n\n\0'
        printf 'SUBSCRIBE\nid:s\ndestination:%s\nreceipt:r\n\n\0' "$1"
        sleep 4
        printf 'DISCONNECT\nreceipt:bye\n\n\0'
        sleep 1
    ) | nc 127.0.0.1 "$port" > "$to/$1"
}

subscriber A & a=$!
subscriber B & b=$!
sleep 1
(
    printf 'CONNECT\naccept-version:1.2\nhost:h\n\n\0'
    printf 'SEND\ndestination:A\nreceipt:sent\n\nhello\0'
    printf 'BEGIN\ntransaction:t\n\n\0'
    printf 'SEND\ndestination:A\ntransaction:t\n\none\0'
    printf 'SEND\ndestination:B\ntransaction:t\n\ntwo\0'
    printf 'COMMIT\ntransaction:t\nreceipt:committed\n\n\0'
    printf 'COMMIT\ntransaction:u\nreceipt:never\n\n\0'
    sleep 1
) | nc 127.0.0.1 "$port" > "$to/sender"
wait $a $b
for who in sender A B; do
    echo "== $who"
    cat -v "$to/$who"
done
