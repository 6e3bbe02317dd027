#!/bin/sh
# A party proves that its message was delivered. The word is the program, which is bin/pec where none is given; run it in
# an empty folder. alice at alfa writes to bob at beta; the message goes to its end, and she saves her two receipts.
# Before a court they are a dossier: the directory, a line %%, and each receipt in base64 on a line. It needs openssl, with
# which receipts are forged.
program=${1-$(dirname "$0")/../bin/pec}

cat > directory <<'TOML'
[[provider]]
name = "alfa"
mailReceipt = "ricevute@alfa.example"
managedDomains = ["alfa.example"]
key = "000102030405060708090a0b0c0d0e0f"
zone = "UTC0"
[[provider.account]]
address = "alice@alfa.example"
quota = 100
key = "chiave-alice"
[[provider]]
name = "beta"
mailReceipt = "ricevute@beta.example"
managedDomains = ["beta.example"]
key = "101112131415161718191a1b1c1d1e1f"
zone = "UTC0"
[[provider.account]]
address = "bob@beta.example"
quota = 100
key = "chiave-bob"
TOML

# Has the program check what stands on lines of a file, and shows what it writes. A certificate is a long line of base64:
# its front is shown.
check() {
    echo "> $1"
    { cat directory; echo '%%'; cat "$2"; } | "$program" check | cut -c 1-100
}

# the message, and what alice's mailbox holds of it in the end
message=$(printf 'From: alice@alfa.example\r\nTo: bob@beta.example\r\nSubject: Disdetta\r\n\r\nDisdico.\r\n' | base64 -w 0)
{
    cat directory
    echo '%%'
    echo "submit alfa 1704186000 alice@alfa.example bob@beta.example $message"
    echo 'round 1704186001'
    echo 'round 1704186002'
    echo 'round 1704186003'
    echo 'show alice@alfa.example 0'
    echo 'show alice@alfa.example 1'
} | "$program" run > written
tail -n 2 written > saved
sed -n 1p saved > accepted
sed -n 2p saved > delivered
check 'the receipts of acceptance and of delivery' saved

# one byte of the receipt is another one: it is no letter of beta's any more
base64 -d delivered | sed 's/Disdico/Disdica/' | base64 -w 0 > changed
check 'a receipt with one byte changed' changed

# who has beta's key can seal that the mailbox was full; then the two contradict each other, and neither proves anything
key=101112131415161718191a1b1c1d1e1f
base64 -d delivered | sed '1d' > under
sed -e 's/^X-Ricevuta: .*/X-Ricevuta: errore-consegna\r/' -e '/^X-TipoRicevuta: /d' \
    -e 's/avvenuta-consegna" errore="nessuno"/errore-consegna" errore="altro"/' -e '/<ricevuta tipo=/d' \
    -e 's/^<\/dati>/<errore-esteso>mailbox-full<\/errore-esteso>\r\n<\/dati>/' under > forged
tag=$(openssl dgst -sha256 -mac HMAC -macopt hexkey:$key -binary forged | base64 -w 0)
{ cat delivered; { printf 'X-Sigillo: beta; %s\r\n' "$tag"; cat forged; } | base64 -w 0; echo; } > both
check 'the receipt, and a forged one that the mailbox was full' both

# the same forged by alfa, which isn't bob's provider
key=000102030405060708090a0b0c0d0e0f
sed 's/<gestore-emittente>beta</<gestore-emittente>alfa</' forged > other
tag=$(openssl dgst -sha256 -mac HMAC -macopt hexkey:$key -binary other | base64 -w 0)
{ printf 'X-Sigillo: alfa; %s\r\n' "$tag"; cat other; } | base64 -w 0 > by-alfa
check 'the forged one, sealed by another provider' by-alfa
