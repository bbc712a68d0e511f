least([X],X). least([X,Y|L],M) :- X @=< Y, !, least([X|L],M). least([_|L],M) :- least(L,M).
