thf(a,type,a: $o).
thf(b,type,b: $o).
thf(d1,definition,( a = ( ~ b ) )).
thf(d2,definition,( b = $true )).
