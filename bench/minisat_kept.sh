#!/usr/bin/env bash
# Builds minisat so that it deletes no learned clause: bench/minisat_kept.sh FOLDER makes FOLDER/minisat-kept from Debian's source.
# Needs a line deb-src among the sources of apt, dpkg-dev, g++ and zlib1g-dev.
set -eu
mkdir -p "$1"
cd "$1"
apt-get source minisat >/dev/null
cd minisat2-*/
sed -i 's/^ *reduceDB();$/{}/' minisat/core/Solver.cc
g++ -O2 -std=c++11 -w -D__STDC_LIMIT_MACROS -D__STDC_FORMAT_MACROS -I. -o ../minisat-kept \
  minisat/simp/Main.cc minisat/simp/SimpSolver.cc minisat/core/Solver.cc minisat/utils/System.cc minisat/utils/Options.cc -lz
