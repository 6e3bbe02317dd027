#!/bin/sh
# A court asks two providers for their logs of one day. The word is the program, which is bin/pec where none is given; run
# it in an empty folder. A run of three days leaves the journals of alfa and beta there; the extract of the second day is
# read from these, and leaves them as they are. It is CSV, which any table program opens.
program=${1-$(dirname "$0")/../bin/pec}

cat > directory <<'TOML'
[[provider]]
name = "alfa"
mailReceipt = "ricevute@alfa.example"
managedDomains = ["alfa.example"]
key = "000102030405060708090a0b0c0d0e0f"
zone = "CET-1CEST,M3.5.0,M10.5.0/3"
[[provider.account]]
address = "alice@alfa.example"
quota = 100
key = "chiave-alice"
[[provider.account]]
address = "anna@alfa.example"
quota = 100
key = "chiave-anna"
[[provider]]
name = "beta"
mailReceipt = "ricevute@beta.example"
managedDomains = ["beta.example"]
key = "101112131415161718191a1b1c1d1e1f"
zone = "CET-1CEST,M3.5.0,M10.5.0/3"
[[provider.account]]
address = "bob@beta.example"
quota = 100
key = "chiave-bob"
TOML

# a moment in Rome, in winter, as the program has it: seconds since 1970
at() { date -d "$1 +0100" +%s; }

# Hands a message in at alfa: when, whose account, from whom it says it is, to whom, and its subject.
submit() {
    text=$(printf 'From: %s\r\nTo: %s\r\nSubject: %s\r\n\r\nSalve\r\n' "$3" "$4" "$5" | base64 -w 0)
    echo "submit alfa $(at "$1") $2 $4 $text"
}

# Some rounds, in which frames go over the links and are handled.
rounds() {
    for second in 1 2 3 4; do echo "round $(at "$1:0$second")"; done
}

alice=alice@alfa.example anna=anna@alfa.example bob=bob@beta.example
{
    cat directory
    echo '%%'
    # the first of January: alice writes to bob, who gets it
    submit '2024-01-01 10:00:00' $alice $alice $bob 'Auguri'
    rounds '2024-01-01 10:00'
    # the second: a notice of termination, which bob gets; one to an address that nobody has; and one that anna hands in
    # in alice's name
    submit '2024-01-02 10:00:00' $alice $alice $bob 'Disdetta del "Contratto 12", recesso'
    submit '2024-01-02 10:00:00' $alice $alice bruno@beta.example 'Reclamo'
    submit '2024-01-02 10:00:00' $anna $alice $bob 'Rinuncia'
    rounds '2024-01-02 10:00'
    # what isn't certified mail comes to bob from outside
    echo "inject alfa beta $(printf 'Per: bob@beta.example\r\nFrom: x@posta.example\r\n\r\nOfferta\r\n' | base64 -w 0)"
    echo "round $(at '2024-01-02 12:00:00')"
    # a message at the last second of the day, which comes to its end on the next one
    submit '2024-01-02 23:59:59' $alice $alice $bob 'Sollecito'
    rounds '2024-01-03 00:00'
    # bob moves the notice of termination to his archive
    echo "archive bob@beta.example $(at '2024-01-03 09:00:00') 1"
} | "$program" run > written

# Has the program write the log from one moment to another; both belong to it.
extract() {
    echo "> the log from $1 to $2"
    "$program" extract "$(at "$1")" "$(at "$2")" < directory
}

# the second of January, whole
extract '2024-01-02 00:00:00' '2024-01-02 23:59:59'
# the last second of it alone, and then the day behind it, in which that message came to its end
extract '2024-01-02 23:59:59' '2024-01-02 23:59:59'
extract '2024-01-03 00:00:00' '2024-01-03 23:59:59'
