thf(a,type,a: $o).
thf(b,type,b: $o).
thf(d1,definition,( a = $true )).
thf(d2,definition,( b = ( ~ a ) )).
thf(d3,definition,( a = ( ~ b ) )).
