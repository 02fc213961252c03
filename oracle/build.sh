#!/bin/bash
# Builds the oracle from given Rust files, which are not part of this repository.
#
#   oracle/build.sh FOLDER      FOLDER holds crates/parol/src; or PAROL=FOLDER oracle/build.sh
#
# Copies the files' two folders into given/, which is not kept, and builds without a network. The programs are then in target/release.
set -euo pipefail
folder=${1:-${PAROL:-}}
[ -n "$folder" ] || { echo 'usage: oracle/build.sh FOLDER, or PAROL=FOLDER oracle/build.sh' >&2; exit 2; }
source=$folder/crates/parol/src
for part in analysis grammar; do
    [ -d "$source/$part" ] || { echo "oracle/build.sh: no folder crates/parol/src/$part in $folder" >&2; exit 1; }
done
source=$(cd "$source" && pwd -P)
cd "$(dirname "$0")"
rm -rf given
mkdir given
cp -Rp "$source/analysis" "$source/grammar" given/
cargo build --release --offline
