a :- b, write(c).
