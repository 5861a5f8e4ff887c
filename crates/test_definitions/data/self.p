thf(f,type,f: $o).
thf(d,definition,( f = ( ~ f ) )).
