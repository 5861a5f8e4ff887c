% By induction the transitive closure is within the reflexive one.
% Needs: within_is, closure_induct, reflexive_is, star_reflexive, star_step
include('bench/library/all.ax').
thf(goal,conjecture,( ! [R:$i>$i>$o] : ( within @ ( closure @ R ) @ ( star @ R ) ) )).
