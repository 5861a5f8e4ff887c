% Two axioms that contradict each other, without a conjecture: Unsatisfiable.
thf(p,type,p: $o).
thf(a,axiom,p).
thf(b,axiom,( ~ p )).
