% The conjecture is one of the axioms, behind two negations: Theorem.
thf(rain,type,rain: $o).
thf(wet,type,wet: $o).
thf(a,axiom,( ~ wet )).
thf(b,axiom,( ~ ( ~ rain ) )).
thf(c,conjecture,rain).
