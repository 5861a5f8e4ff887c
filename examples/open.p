% Nothing is known of p: GaveUp.
thf(p,type,p: $o).
thf(c,conjecture,p).
