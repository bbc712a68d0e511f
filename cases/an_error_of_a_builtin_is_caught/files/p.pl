p(X,E) :- catch(X is foo + 1, error(type_error(evaluable,E),_), true).
