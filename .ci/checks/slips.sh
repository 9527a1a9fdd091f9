#!/usr/bin/env bash
# Two misuses of a slip that the front end must refuse: forgetting one, and writing to a finished structure.
# A small client of the store is tried in a temporary folder, beside copies of the crates that it stands on: first without a
# misuse, then with each. `rt try` runs it before any proof, so nothing is proved here.
set -eu
here=$(cd "$(dirname "$0")/../.." && pwd)
room=$(mktemp -d)
trap 'rm -rf "$room"' EXIT
used="store $(sed -n 's/^store: //p' "$here/crates.txt")"
mkdir -p "$room/crates/client/src" "$room/crates/client/specs"
for name in $used; do
  (cd "$here/crates" && tar -cf - --exclude=out "$name") | (cd "$room/crates" && tar -xf -)
  grep "^$name:" "$here/crates.txt" >>"$room/crates.txt"
done
echo "client: $used" >>"$room/crates.txt"
touch "$room/crates/client/specs/Lib.antt"
cd "$room/crates/client"

# Tries the client with the given last lines of `finish`, and leaves what is said of it in the file `said`.
try_client() {
  cat >src/main.rt <<CLIENT
#![tactic(auto)]

use cells::Refusal;
use store::{Slip, Store};

// Writes a variable as the last argument and points X0 at the structure.
pub fn finish(store: &mut Store, slip: Slip) -> Result<(), (Refusal, Slip)> {
    let slip = store.hole(slip)?;
    $1
}

fn main() {}
CLIENT
  rt try >"$room/said" 2>&1
}

# Expects that the front end refuses the client for the given reason.
refused() {
  status=0
  try_client "$3" || status=$?
  if [ "$status" -ne 1 ] || ! grep -q "error\[$2\]" "$room/said"; then
    echo "slips: $1: not refused with $2 (exit $status)" >&2
    cat "$room/said" >&2
    exit 1
  fi
  echo "slips: $1: refused, as it must be"
}

if ! try_client 'store.done(slip, 0)'; then
  echo 'slips: the client without a misuse is refused' >&2
  cat "$room/said" >&2
  exit 1
fi
refused 'a forgotten slip' linear-value-let-go 'Ok(())'
refused 'writing to a finished structure' borrow-e0382 'store.done(slip, 0)?; let slip = store.hole(slip)?; store.done(slip, 0)'
