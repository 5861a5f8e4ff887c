% What alone has a property is what the property describes.
thf(p_type,type,p: $i>$o).
thf(a_type,type,a: $i).
thf(a1,axiom,( ( p @ a ) )).
thf(a2,axiom,( ! [X:$i] : ( ( p @ X ) => ( X = a ) ) )).
thf(goal,conjecture,( ( @- [X:$i] : ( p @ X ) ) = a )).
