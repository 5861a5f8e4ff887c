thf(cantor,conjecture,( ~ ( ? [G: $i > $i > $o] : ! [F: $i > $o] : ? [X:$i] : ( ( G @ X ) = F ) ) )).
