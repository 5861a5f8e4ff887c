% By induction the reflexive transitive closure is transitive.
% Needs: transitive_is, star_induct, star_step
include('bench/library/relations.ax').
thf(goal,conjecture,( ! [R:$i>$i>$o] : ( transitive @ ( star @ R ) ) )).
