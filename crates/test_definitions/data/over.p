thf(p,type,p: $o).
thf(e1_type,type,e1: $o).
thf(e1_is,definition,( e1 = ( p => p ) )).
thf(e2_type,type,e2: $o).
thf(e2_is,definition,( e2 = ( e1 => e1 ) )).
thf(e3_type,type,e3: $o).
thf(e3_is,definition,( e3 = ( e2 => e2 ) )).
thf(e4_type,type,e4: $o).
thf(e4_is,definition,( e4 = ( e3 => e3 ) )).
thf(e5_type,type,e5: $o).
thf(e5_is,definition,( e5 = ( e4 => e4 ) )).
thf(e6_type,type,e6: $o).
thf(e6_is,definition,( e6 = ( e5 => e5 ) )).
thf(e7_type,type,e7: $o).
thf(e7_is,definition,( e7 = ( e6 => e6 ) )).
thf(e8_type,type,e8: $o).
thf(e8_is,definition,( e8 = ( e7 => e7 ) )).
thf(e9_type,type,e9: $o).
thf(e9_is,definition,( e9 = ( e8 => e8 ) )).
thf(e10_type,type,e10: $o).
thf(e10_is,definition,( e10 = ( e9 => e9 ) )).
thf(e11_type,type,e11: $o).
thf(e11_is,definition,( e11 = ( e10 => e10 ) )).
thf(e12_type,type,e12: $o).
thf(e12_is,definition,( e12 = ( e11 => e11 ) )).
thf(e13_type,type,e13: $o).
thf(e13_is,definition,( e13 = ( e12 => e12 ) )).
thf(e14_type,type,e14: $o).
thf(e14_is,definition,( e14 = ( e13 => e13 ) )).
thf(r0_type,type,r0: $o).
thf(r0_is,definition,( r0 = ( p => ( p => p ) ) )).
thf(r1_type,type,r1: $o).
thf(r1_is,definition,( r1 = ( e1 => r0 ) )).
thf(r2_type,type,r2: $o).
thf(r2_is,definition,( r2 = ( e2 => r1 ) )).
thf(r3_type,type,r3: $o).
thf(r3_is,definition,( r3 = ( e5 => r2 ) )).
thf(r4_type,type,r4: $o).
thf(r4_is,definition,( r4 = ( e7 => r3 ) )).
thf(r5_type,type,r5: $o).
thf(r5_is,definition,( r5 = ( e8 => r4 ) )).
thf(r6_type,type,r6: $o).
thf(r6_is,definition,( r6 = ( e13 => r5 ) )).
thf(r7_type,type,r7: $o).
thf(r7_is,definition,( r7 = ( e14 => r6 ) )).
