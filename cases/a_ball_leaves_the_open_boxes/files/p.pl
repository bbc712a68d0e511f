p :- q, r. q. q. r :- s, throw(f(X,X)). s.
