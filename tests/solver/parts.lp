% The stable assignments of the written shapes part by part, without the expansion (document 02, point 2). Beside judge.lp, with facts written(K,S,..) in the place of shape(K,S,..): a part is a term that holds its inner parts.
% A part has two atoms at a node, tv and tp, as a pair has v and p; mv and mp: more than N fillers have the part.

part(K,X) :- written(K,_,X).
part(K,X;K,Y) :- part(K,and(X,Y)).
part(K,X;K,Y) :- part(K,or(X,Y)).
part(K,X) :- part(K,deny(X)).
part(K,X) :- part(K,all(_,X)).
part(K,X) :- part(K,least(_,_,X)).
part(K,X) :- part(K,most(_,_,X)).

differ(K,same(F,G),A) :- part(K,same(F,G)), fill(K,F,A,B), not fill(K,G,A,B).
differ(K,same(F,G),A) :- part(K,same(F,G)), fill(K,G,A,B), not fill(K,F,A,B).

v(K,S,A) :- on(K), written(K,S,X), tv(K,X,A).
tv(K,named(S),A) :- on(K), part(K,named(S)), v(K,S,A).
tv(K,top,A) :- on(K), part(K,top), live(K,A).
tv(K,node(A),A) :- on(K), part(K,node(A)), live(K,A).
tv(K,and(X,Y),A) :- on(K), part(K,and(X,Y)), tv(K,X,A), tv(K,Y,A).
tv(K,or(X,Y),A) :- on(K), part(K,or(X,Y)), tv(K,X,A).
tv(K,or(X,Y),A) :- on(K), part(K,or(X,Y)), tv(K,Y,A).
tv(K,deny(X),A) :- on(K), part(K,deny(X)), live(K,A), not tp(K,X,A).
tv(K,same(F,G),A) :- on(K), part(K,same(F,G)), live(K,A), not differ(K,same(F,G),A).
tv(K,all(P,X),A) :- on(K), part(K,all(P,X)), live(K,A), tv(K,X,B) : fill(K,P,A,B).
tv(K,least(N,P,X),A) :- on(K), part(K,least(N,P,X)), live(K,A), N <= #count { B : fill(K,P,A,B), tv(K,X,B) }.
tv(K,most(N,P,X),A) :- on(K), part(K,most(N,P,X)), live(K,A), not mp(K,N,P,X,A).
mv(K,N,P,X,A) :- on(K), part(K,most(N,P,X)), live(K,A), N < #count { B : fill(K,P,A,B), tv(K,X,B) }.

p(K,S,A) :- on(K), written(K,S,X), tp(K,X,A).
tp(K,named(S),A) :- on(K), part(K,named(S)), p(K,S,A).
tp(K,top,A) :- on(K), part(K,top), live(K,A).
tp(K,node(A),A) :- on(K), part(K,node(A)), live(K,A).
tp(K,and(X,Y),A) :- on(K), part(K,and(X,Y)), tp(K,X,A), tp(K,Y,A).
tp(K,or(X,Y),A) :- on(K), part(K,or(X,Y)), tp(K,X,A).
tp(K,or(X,Y),A) :- on(K), part(K,or(X,Y)), tp(K,Y,A).
tp(K,deny(X),A) :- on(K), part(K,deny(X)), live(K,A), not tv(K,X,A).
tp(K,same(F,G),A) :- on(K), part(K,same(F,G)), live(K,A), not differ(K,same(F,G),A).
tp(K,all(P,X),A) :- on(K), part(K,all(P,X)), live(K,A), tp(K,X,B) : fill(K,P,A,B).
tp(K,least(N,P,X),A) :- on(K), part(K,least(N,P,X)), live(K,A), N <= #count { B : fill(K,P,A,B), tp(K,X,B) }.
tp(K,most(N,P,X),A) :- on(K), part(K,most(N,P,X)), live(K,A), not mv(K,N,P,X,A).
mp(K,N,P,X,A) :- on(K), part(K,most(N,P,X)), live(K,A), N < #count { B : fill(K,P,A,B), tp(K,X,B) }.
