p :- catch(q,x,true), throw(x). q.
