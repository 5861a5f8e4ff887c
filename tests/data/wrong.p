thf(p,type,p: $o).
thf(c,conjecture,( p & )).
