% What has all properties of another thing is that thing, by way of a third.
thf(a,type,a: $i).
thf(b,type,b: $i).
thf(c,type,c: $i).
thf(first,axiom,( ! [P: $i > $o] : ( ( P @ a ) => ( P @ b ) ) )).
thf(second,axiom,( ! [P: $i > $o] : ( ( P @ b ) => ( P @ c ) ) )).
thf(same,conjecture,( a = c )).
