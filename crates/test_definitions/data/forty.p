thf(p,type,p: $o).
thf(c1_type,type,c1: $o).
thf(c1_is,definition,( c1 = ( p => p ) )).
thf(c2_type,type,c2: $o).
thf(c2_is,definition,( c2 = ( c1 => c1 ) )).
thf(c3_type,type,c3: $o).
thf(c3_is,definition,( c3 = ( c2 => c2 ) )).
thf(c4_type,type,c4: $o).
thf(c4_is,definition,( c4 = ( c3 => c3 ) )).
thf(c5_type,type,c5: $o).
thf(c5_is,definition,( c5 = ( c4 => c4 ) )).
thf(c6_type,type,c6: $o).
thf(c6_is,definition,( c6 = ( c5 => c5 ) )).
thf(c7_type,type,c7: $o).
thf(c7_is,definition,( c7 = ( c6 => c6 ) )).
thf(c8_type,type,c8: $o).
thf(c8_is,definition,( c8 = ( c7 => c7 ) )).
thf(c9_type,type,c9: $o).
thf(c9_is,definition,( c9 = ( c8 => c8 ) )).
thf(c10_type,type,c10: $o).
thf(c10_is,definition,( c10 = ( c9 => c9 ) )).
thf(c11_type,type,c11: $o).
thf(c11_is,definition,( c11 = ( c10 => c10 ) )).
thf(c12_type,type,c12: $o).
thf(c12_is,definition,( c12 = ( c11 => c11 ) )).
thf(c13_type,type,c13: $o).
thf(c13_is,definition,( c13 = ( c12 => c12 ) )).
thf(c14_type,type,c14: $o).
thf(c14_is,definition,( c14 = ( c13 => c13 ) )).
thf(c15_type,type,c15: $o).
thf(c15_is,definition,( c15 = ( c14 => c14 ) )).
thf(c16_type,type,c16: $o).
thf(c16_is,definition,( c16 = ( c15 => c15 ) )).
thf(c17_type,type,c17: $o).
thf(c17_is,definition,( c17 = ( c16 => c16 ) )).
thf(c18_type,type,c18: $o).
thf(c18_is,definition,( c18 = ( c17 => c17 ) )).
thf(c19_type,type,c19: $o).
thf(c19_is,definition,( c19 = ( c18 => c18 ) )).
thf(c20_type,type,c20: $o).
thf(c20_is,definition,( c20 = ( c19 => c19 ) )).
thf(c21_type,type,c21: $o).
thf(c21_is,definition,( c21 = ( c20 => c20 ) )).
thf(c22_type,type,c22: $o).
thf(c22_is,definition,( c22 = ( c21 => c21 ) )).
thf(c23_type,type,c23: $o).
thf(c23_is,definition,( c23 = ( c22 => c22 ) )).
thf(c24_type,type,c24: $o).
thf(c24_is,definition,( c24 = ( c23 => c23 ) )).
thf(c25_type,type,c25: $o).
thf(c25_is,definition,( c25 = ( c24 => c24 ) )).
thf(c26_type,type,c26: $o).
thf(c26_is,definition,( c26 = ( c25 => c25 ) )).
thf(c27_type,type,c27: $o).
thf(c27_is,definition,( c27 = ( c26 => c26 ) )).
thf(c28_type,type,c28: $o).
thf(c28_is,definition,( c28 = ( c27 => c27 ) )).
thf(c29_type,type,c29: $o).
thf(c29_is,definition,( c29 = ( c28 => c28 ) )).
thf(c30_type,type,c30: $o).
thf(c30_is,definition,( c30 = ( c29 => c29 ) )).
thf(c31_type,type,c31: $o).
thf(c31_is,definition,( c31 = ( c30 => c30 ) )).
thf(c32_type,type,c32: $o).
thf(c32_is,definition,( c32 = ( c31 => c31 ) )).
thf(c33_type,type,c33: $o).
thf(c33_is,definition,( c33 = ( c32 => c32 ) )).
thf(c34_type,type,c34: $o).
thf(c34_is,definition,( c34 = ( c33 => c33 ) )).
thf(c35_type,type,c35: $o).
thf(c35_is,definition,( c35 = ( c34 => c34 ) )).
thf(c36_type,type,c36: $o).
thf(c36_is,definition,( c36 = ( c35 => c35 ) )).
thf(c37_type,type,c37: $o).
thf(c37_is,definition,( c37 = ( c36 => c36 ) )).
thf(c38_type,type,c38: $o).
thf(c38_is,definition,( c38 = ( c37 => c37 ) )).
thf(c39_type,type,c39: $o).
thf(c39_is,definition,( c39 = ( c38 => c38 ) )).
thf(c40_type,type,c40: $o).
thf(c40_is,definition,( c40 = ( c39 => c39 ) )).
