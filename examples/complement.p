% A set has a complement: some predicate holds of exactly the things that aren't red.
thf(red,type,red: $i > $o).
thf(round,type,round: $i > $o).
thf(heavy,type,heavy: $i > $o).
thf(complement,conjecture,( ? [P: $i > $o] : ! [X:$i] : ( ( P @ X ) <=> ~ ( red @ X ) ) )).
