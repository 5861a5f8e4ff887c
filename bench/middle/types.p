% Two types beside that of individuals, and sets of points under maps.
thf(point_type,type,point: $tType).
thf(line_type,type,line: $tType).
thf(on,type,on: point > line > $o).
thf(through,type,through: point > point > line).
thf(origin,type,origin: point).
thf(closed,type,closed: ( point > $o ) > $o).
thf(lines,axiom,( ! [P:point,Q:point] : ( ( on @ P @ ( through @ P @ Q ) ) & ( on @ Q @ ( through @ P @ Q ) ) ) )).
thf(all_lines,axiom,( ! [L:line] : ( closed @ ( ^ [P:point] : ( on @ P @ L ) ) ) )).
thf(maps,axiom,( ! [F:point > point,S:point > $o] : ( ( closed @ S ) => ( closed @ ( ^ [P:point] : ( S @ ( F @ P ) ) ) ) ) )).
thf(goal,conjecture,( ! [S:point > $o] : ( closed @ S ) )).
