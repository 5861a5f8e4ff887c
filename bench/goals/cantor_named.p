% A given map from things to sets misses a set.
thf(g_type,type,g: $i>$i>$o).
thf(goal,conjecture,( ? [F:$i>$o] : ! [X:$i] : ( ( g @ X ) != F ) )).
