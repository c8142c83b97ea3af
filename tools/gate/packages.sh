#!/usr/bin/env bash
# Installs what is missing here of that which features and tests need (bin/formula-score needs), as far as it can be
# had. Needs root; it waits for no mirror longer than some minutes, and its status says nothing.
top=$(cd "$(dirname "${BASH_SOURCE[0]}")/../.." && pwd) || exit
export DEBIAN_FRONTEND=noninteractive
install() { timeout 300 apt-get -qq -y --no-install-recommends install "$@"; }
read -ra names < <("$top/bin/formula-score" needs --names sound studio lsp dask vim tests)
[ ${#names[@]} -gt 0 ] || exit 0
timeout 300 apt-get -qq update
# a name that is not known keeps all others out
install "${names[@]}" || for name in "${names[@]}"; do install "$name"; done
exit 0
