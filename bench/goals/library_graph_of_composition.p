% The graph of a composition is the product of the graphs.
% Needs: graph_is, product_is, comp_is
include('bench/library/all.ax').
thf(goal,conjecture,( ! [F:$i>$i,G:$i>$i] : ( ( graph @ ( comp @ F @ G ) ) = ( product @ ( graph @ G ) @ ( graph @ F ) ) ) )).
