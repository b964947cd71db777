#!/usr/bin/env bash
# The transcripts, over the programs that `rt ci` built: as LLVM builds it, and as Rattle's own compiler does. Each file has a last
# line of its own; as many files run at a time as there are processors.
set -u
cd "$(dirname "$0")/.." || exit 1
for end in '' .by-rattle; do
  program=crates/rootio/out/rootio$end
  echo "Transcripts of $program:"
  ls README.md $(grep -l '^    \$ ' docs/*.md) tests/*.md | xargs -P "$(nproc)" -n 1 tests/run "$program" || exit 1
done
echo "All transcripts pass."
