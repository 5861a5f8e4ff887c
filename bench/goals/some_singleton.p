% Each thing has a set of which it is the only member.
thf(goal,conjecture,( ! [A:$i] : ? [S:$i>$o] : ! [X:$i] : ( ( S @ X ) <=> ( X = A ) ) )).
