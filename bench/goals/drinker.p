% Somebody drinks only if all drink.
thf(drinks_type,type,drinks: $i>$o).
thf(goal,conjecture,( ? [X:$i] : ! [Y:$i] : ( ( drinks @ X ) => ( drinks @ Y ) ) )).
