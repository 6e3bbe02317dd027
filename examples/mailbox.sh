#!/bin/sh
# A message over HTTP from one account to another, at another provider. The words are the program, which is bin/pec where
# none are given; run it in an empty folder. Behind each connection every provider looks at the clock and one round is
# played, so that each question carries the message a step on. Here six connections are served, and then the program ends.
[ $# -gt 0 ] || set -- "$(dirname "$0")/../bin/pec"

"$@" serve 6 > lines <<'TOML' &
[[provider]]
name = "alfa"
mailReceipt = "ricevute@alfa.example"
managedDomains = ["alfa.example"]
key = "000102030405060708090a0b0c0d0e0f"
zone = "UTC0"
[[provider.account]]
address = "alice@alfa.example"
quota = 100
key = "chiave-alice"
[[provider]]
name = "beta"
mailReceipt = "ricevute@beta.example"
managedDomains = ["beta.example"]
key = "101112131415161718191a1b1c1d1e1f"
zone = "UTC0"
[[provider.account]]
address = "bob@beta.example"
quota = 100
key = "chiave-bob"
TOML

# Shows what is asked, and what is answered to it. The port is open a moment after the program has begun.
ask() {
    echo "> curl $*"
    curl --silent --show-error --retry 60 --retry-delay 1 --retry-connrefused "$@" 2> errors || cat errors
}

printf 'From: alice@alfa.example\r\nTo: bob@beta.example\r\nSubject: Ciao\r\n\r\nSalve\r\n' > message
alice=http://127.0.0.1:8125/mail/alice@alfa.example
bob=http://127.0.0.1:8125/mail/bob@beta.example

# alice hands her message in, with the path that it goes
ask --include --header x-key:chiave-alice --header x-path:bob@beta.example --data-binary @message $alice/submit
# her book has one row, which is open
ask --header x-key:chiave-alice $alice/book
# beta has placed the envelope in bob's mailbox
ask --header x-key:chiave-bob $bob/items
ask --header x-key:chiave-bob $bob/items/0
# alfa has learned of it meanwhile: the row has its end, and alice the delivery receipt behind that of acceptance
ask --header x-key:chiave-alice $alice/book
ask --header x-key:chiave-alice $alice/items/1

wait
echo '> cat lines'
cat lines
