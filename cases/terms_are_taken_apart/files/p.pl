args(T,L) :- functor(T,_,N), args(0,N,T,L). args(N,N,_,[]) :- !. args(I,N,T,[A|L]) :- J is I+1, arg(J,T,A), args(J,N,T,L).
