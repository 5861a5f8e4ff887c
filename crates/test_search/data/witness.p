thf(c,conjecture,( ! [X:$i] : $true )).
