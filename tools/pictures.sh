#!/usr/bin/env bash
# Makes the pictures of the pages: docs/pictures/NAME.svg of each text NAME.dot beside it, by Debian's graphviz. Each picture ends
# with the SHA-256 of the text that it was made of, by which tools/tests/test_pages.py knows one that isn't its text's any more.
set -euo pipefail
case ${1:-} in
-h | --help) sed -n '2,/^[^#]/s/^# //p' "$0"; exit ;;
?*) echo "error: words given: $#, taken: none; see --help" >&2; exit 2 ;;
esac
command -v dot >/dev/null || { echo "error: dot isn't installed; it is in Debian's package graphviz" >&2; exit 3; }
cd "$(dirname "${BASH_SOURCE[0]}")/../docs/pictures"
for text in *.dot; do
  made=$(dot -Tsvg "$text")
  printf '%s\n<!-- made of %s, SHA-256 %s -->\n' "$made" "$text" "$(sha256sum <"$text" | cut -c1-64)" >"${text%.dot}.svg"
done
