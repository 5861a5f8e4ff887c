thf(c,conjecture,( ( @- [X:$i] : ( X = X ) ) = ( @- [X:$i] : ( X = X ) ) )).
