thf(c,type,c: $i).
thf(g,conjecture,( ? [P: $i > $o] : ( P @ c ) )).
