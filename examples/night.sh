#!/bin/sh
# Runs the decks of a folder on the accounts of accounts.cards: sh night.sh DECKS
# Then all of the night stands in DECKS.night, and accounts.cards has what the accounts have left. Where anything fails,
# accounts.cards is as before, there is no DECKS.night, and the decks can be run again.
set -eu
monitor=${MONITOR:-./monitor}
decks=${1:?usage: sh night.sh DECKS}
decks=${decks%/}
night=$decks.night
if [ -e "$night" ]; then
    echo "night: $night is there already: these decks have been run" >&2
    exit 1
fi
room=$(mktemp -d "$night.XXXXXX")
trap 'rm -rf "$room" accounts.new' EXIT
trap 'exit 1' HUP INT TERM

cp accounts.cards "$room/accounts.cards"
"$monitor" batch --skip accounts.cards "$decks" >"$room/batch.cards" 2>"$room/left-out" || {
    cat "$room/left-out" >&2
    exit 1
}
"$monitor" <"$room/batch.cards" >"$room/batch.listing"
"$monitor" handout "$room/batch.listing" "$room/handout"

cp "$room/handout/accounts.cards" accounts.new
mv "$room" "$night"
mv accounts.new accounts.cards
cat "$night/left-out" >&2
