#!/bin/sh
# Runs batches, a night each, on the accounts of accounts.toml: sh week.sh NIGHT.cards..
# Of each night NIGHT.listing is kept, and NIGHT.toml, the accounts that it began with. accounts.toml has what they have left.
# Where a night fails the week ends: accounts.toml is as that night found it, and its cards can be run again.
set -eu
monitor=${MONITOR:-./monitor}
trap 'exit 1' HUP INT TERM
for cards; do
    night=${cards%.cards}
    if [ -e accounts.next.toml ]; then
        echo "week: accounts.next.toml is there still: was the night before cut short?" >&2
        exit 1
    fi
    if [ -e "$night.listing" ]; then
        echo "week: $night.listing is there already: this night has been run" >&2
        exit 1
    fi
    trap 'rm -f "$night.part" accounts.next.toml' EXIT
    "$monitor" --accounts <"$cards" >"$night.part"
    cp accounts.toml "$night.toml"
    trap - EXIT
    mv "$night.part" "$night.listing"
    mv accounts.next.toml accounts.toml
done
