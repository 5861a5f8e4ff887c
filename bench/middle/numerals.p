% Church's numerals as terms of a type of the third order: holes under two binders.
thf(plus,type,plus: ( ( $i > $i ) > $i > $i ) > ( ( $i > $i ) > $i > $i ) > ( $i > $i ) > $i > $i).
thf(even,type,even: ( ( $i > $i ) > $i > $i ) > $o).
thf(zero,axiom,( even @ ( ^ [F:$i > $i,X:$i] : X ) )).
thf(next,axiom,( ! [N:( $i > $i ) > $i > $i] : ( ( even @ N ) => ( even @ ( ^ [F:$i > $i,X:$i] : ( F @ ( F @ ( N @ F @ X ) ) ) ) ) ) )).
thf(sum,axiom,( ! [M:( $i > $i ) > $i > $i,N:( $i > $i ) > $i > $i] : ( ( ( even @ M ) & ( even @ N ) ) => ( even @ ( plus @ M @ N ) ) ) )).
thf(goal,conjecture,( even @ ( ^ [F:$i > $i,X:$i] : ( F @ X ) ) )).
