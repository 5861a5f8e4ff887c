% Peirce's law
thf(p,type,p: $o).
thf(q,type,q: $o).
thf(peirce,conjecture,( ( p => q ) => p ) => p).
