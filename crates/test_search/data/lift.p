thf(c,conjecture,( ! [Z:$i] : ( ( ( ^ [X:$i] : ^ [Y:$i] : X ) @ Z ) = ( ^ [W:$i] : Z ) ) )).
