% Two times two is two and two, where numbers are iterations.
thf(two_type,type,two: ($i>$i)>$i>$i).
thf(plus_type,type,plus: (($i>$i)>$i>$i)>(($i>$i)>$i>$i)>($i>$i)>$i>$i).
thf(times_type,type,times: (($i>$i)>$i>$i)>(($i>$i)>$i>$i)>($i>$i)>$i>$i).
thf(two_is,definition,( two = ( ^ [F:$i>$i,X:$i] : ( F @ ( F @ X ) ) ) )).
thf(plus_is,definition,( plus = ( ^ [M:($i>$i)>$i>$i,N:($i>$i)>$i>$i,F:$i>$i,X:$i] : ( M @ F @ ( N @ F @ X ) ) ) )).
thf(times_is,definition,( times = ( ^ [M:($i>$i)>$i>$i,N:($i>$i)>$i>$i,F:$i>$i] : ( M @ ( N @ F ) ) ) )).
thf(goal,conjecture,( ( plus @ two @ two ) = ( times @ two @ two ) )).
