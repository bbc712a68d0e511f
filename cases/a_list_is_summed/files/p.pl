sum([],0). sum([X|L],S) :- sum(L,T), S is T+X.
